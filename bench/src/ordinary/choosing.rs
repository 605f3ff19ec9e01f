//! The cheapest choice and an offered one; openings, sealings and keys.

use super::reading::Night;
use super::tables::Tables;
use super::{ATTRIBUTES, NODES, Refusal, SUBJECTS, View, members, within};

impl Night<'_> {
    /// The owner where the node is a leaf.
    fn owner_at(&self, i: usize) -> Option<usize> {
        let node = &self.nodes[i];
        node.is_leaf().then(|| self.sources[node.x as usize].owner)
    }

    /// Every child with its parent, from the root down.
    fn edges(&self) -> impl Iterator<Item = (usize, usize)> {
        let of_parent = |i: usize| self.nodes[i].children().map(move |c| (c, i));
        (0..self.n).rev().flat_map(of_parent)
    }

    /// Refusal 17: a leaf holds what the user doesn't see in clear.
    pub fn user_may_have_leaves(&self) -> Result<(), Refusal> {
        let Some(user) = self.user else { return Ok(()) };
        let clear = self.view(user).clear;
        let barred = |i: &usize| self.nodes[*i].is_leaf() && !within(self.nodes[*i].set, clear);
        match (0..self.n).find(barred) {
            Some(i) => Err((17, i as u32)),
            None => Ok(()),
        }
    }

    /// The subjects among which each node's is chosen: a leaf's is the owner. Refusal 12.
    pub fn among(
        &self,
        tables: &Tables,
        views: &[View; SUBJECTS],
    ) -> Result<[u16; NODES], Refusal> {
        let mut among = [0; NODES];
        for (i, set) in among[..self.n].iter_mut().enumerate() {
            *set = match self.owner_at(i) {
                Some(owner) => 1 << owner,
                None => tables.candidates(self, i, views),
            };
            if *set == 0 {
                return Err((12, i as u32));
            }
        }
        Ok(among)
    }

    pub fn steps(&self, among: &[u16; NODES]) -> u32 {
        self.edges().map(|(c, i)| among[i].count_ones() * among[c].count_ones()).sum()
    }

    /// Least cost of each node's tree for each subject at its top, upwards (it means
    /// nothing for one that is no candidate there); then from the root down the lowest
    /// subject that reaches it. A child's best subject depends on its parent's alone,
    /// and the parent's stands before it in the list that is compared.
    pub fn choose(&self, among: &[u16; NODES], choice: &mut [u8]) -> u64 {
        let mut cost = [[0u64; SUBJECTS]; NODES];
        // best[c][p]: the subject of node c when its parent's is p
        let mut best = [[0u8; SUBJECTS]; NODES];
        for i in (0..self.n).filter(|&i| !self.nodes[i].is_leaf()) {
            cost[i] = self.step_prices[i].map(u64::from);
            for c in self.nodes[i].children() {
                let handed = self.handed(c, among[c], &cost[c]);
                for (p, (least, who)) in handed.into_iter().enumerate() {
                    cost[i][p] += least;
                    best[c][p] = who;
                }
            }
        }
        let root = self.n - 1;
        let top = members(among[root] as u64).min_by_key(|&p| cost[root][p]).unwrap();
        choice[root] = top as u8;
        for (c, i) in self.edges() {
            choice[c] = best[c][choice[i] as usize];
        }
        cost[root][top]
    }

    /// For each subject the least that a child's tree costs handed to it, and whose the
    /// child is then. Both stand in one number, the subject in the low bits, so that
    /// the least has the lowest subject; a cost has fewer than 60 bits.
    fn handed(&self, c: usize, among: u16, cost: &[u64; SUBJECTS]) -> [(u64, u8); SUBJECTS] {
        let size = self.nodes[c].size as u64;
        let mut least = [u64::MAX; SUBJECTS];
        for q in members(among as u64) {
            let own = cost[q] << 4 | q as u64;
            for (least, &price) in least.iter_mut().zip(&self.link_prices[q]) {
                *least = (*least).min(own + ((size * price as u64) << 4));
            }
        }
        least.map(|both| (both >> 4, (both & 15) as u8))
    }

    /// Refusal 14: another length, a subject that is no candidate or no owner.
    pub fn admits(&self, tables: &Tables, offer: &[u8]) -> Result<(), Refusal> {
        if offer.len() != self.n {
            return Err((14, self.n as u32));
        }
        let views = self.views();
        for (i, &subject) in offer.iter().enumerate() {
            let p = subject as usize;
            let admitted = match self.owner_at(i) {
                Some(owner) => p == owner,
                None => p < self.s && tables.permit_step(self, i, &views[p]),
            };
            if !admitted {
                return Err((14, i as u32));
            }
        }
        Ok(())
    }

    pub fn total(&self, choice: &[u8]) -> u64 {
        let of_step = |i: usize| self.step_prices[i][choice[i] as usize] as u64;
        let of_link = |(c, i): (usize, usize)| {
            let price = self.link_prices[choice[c] as usize][choice[i] as usize];
            self.nodes[c].size as u64 * price as u64
        };
        (0..self.n).map(of_step).sum::<u64>() + self.edges().map(of_link).sum::<u64>()
    }

    /// Openings, sealings and keys.
    pub fn build(&self, tables: &Tables, choice: &[u8], plan: &mut [u64], keys: &mut [u64]) {
        let root = self.n - 1;
        let mut sealed = 0;
        let mut holders = [0u64; ATTRIBUTES];
        for (i, entry) in plan[..2 * self.n].chunks_exact_mut(2).enumerate() {
            // all that arrives is sealed, and what a step needs is visible, so it opens
            // just that
            let opens = self.nodes[i].needed;
            let seals = if i == root { 0 } else { tables.of(i).clear };
            entry.copy_from_slice(&[opens, seals]);
            sealed |= seals;
            for k in members(opens | seals) {
                holders[k] |= 1 << choice[i];
            }
        }
        if let Some(user) = self.user {
            for k in members(tables.of(root).sealed) {
                holders[k] |= 1 << user;
            }
        }
        for key in keys[..2 * self.a].chunks_exact_mut(2) {
            key.copy_from_slice(&[64, 0]);
        }
        let mut alone = sealed;
        for group in tables.tied(tables.of(root)).iter().map(|set| set & sealed) {
            alone &= !group;
            put_key(keys, group, &holders);
        }
        for k in members(alone) {
            put_key(keys, 1 << k, &holders);
        }
    }
}

/// Names the key of a group at each of its attributes, with all that hold one of them.
fn put_key(keys: &mut [u64], group: u64, holders: &[u64; ATTRIBUTES]) {
    let all = members(group).fold(0, |some, k| some | holders[k]);
    for k in members(group) {
        keys[2 * k] = group.trailing_zeros() as u64;
        keys[2 * k + 1] = all;
    }
}
