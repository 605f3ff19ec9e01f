//! The cheapest choice, found in two ways that share nothing but the prices.

use crate::file::File;

/// Of each node, the subjects it may be given, rising.
pub type Options = Vec<Vec<usize>>;

/// A total, and the subjects in the order in which they are compared, by the
/// rules from the last node to the first: the total first, then number by
/// number.
#[derive(Clone, PartialEq, Eq, PartialOrd, Ord, Debug)]
pub struct Ranked {
    pub total: u64,
    compared: Vec<usize>,
}

impl Ranked {
    fn of(file: &File, choice: &[usize]) -> Ranked {
        Ranked { total: total(file, choice), compared: choice.iter().rev().copied().collect() }
    }

    pub fn choice(&self) -> Vec<usize> {
        self.compared.iter().rev().copied().collect()
    }
}

pub fn total(file: &File, choice: &[usize]) -> u64 {
    let mut sum = 0;
    for (parent, node) in file.nodes.iter().enumerate() {
        sum += file.step_prices[parent][choice[parent]];
        for child in node.work.children() {
            let link = file.link_prices[choice[child]][choice[parent]];
            sum += file.nodes[child].size * link;
        }
    }
    sum
}

/// How many choices there are, if no more than `most`.
pub fn choices_within(options: &Options, most: usize) -> Option<usize> {
    options.iter().try_fold(1, |product: usize, list| {
        let product = product * list.len();
        (product <= most).then_some(product)
    })
}

/// Calls `each` with every choice from the options.
pub fn for_every_choice(options: &Options, mut each: impl FnMut(&[usize])) {
    let mut digits = vec![0; options.len()];
    let mut choice: Vec<usize> = options.iter().map(|list| list[0]).collect();
    loop {
        each(&choice);
        let Some(turn) = (0..digits.len()).find(|&i| digits[i] + 1 < options[i].len()) else {
            return;
        };
        digits[turn] += 1;
        digits[..turn].fill(0);
        for node in 0..=turn {
            choice[node] = options[node][digits[node]];
        }
    }
}

/// The cheapest by trying all, and how many share the least total.
pub fn by_enumeration(file: &File, options: &Options) -> (Ranked, usize) {
    let mut best: Option<Ranked> = None;
    let mut equals = 0;
    for_every_choice(options, |choice| {
        let cost = total(file, choice);
        match best.as_ref().map(|best| cost.cmp(&best.total)) {
            Some(std::cmp::Ordering::Greater) => return,
            Some(std::cmp::Ordering::Equal) => equals += 1,
            _ => equals = 1,
        }
        let found = Ranked::of(file, choice);
        if best.as_ref().is_none_or(|best| found < *best) {
            best = Some(found);
        }
    });
    (best.expect("every node has an option"), equals)
}

/// A search that goes down the tree; `places` says where each node's subject
/// stands in the lists that are compared.
struct Search<'a> {
    file: &'a File,
    options: &'a Options,
    places: Vec<usize>,
}

impl Search<'_> {
    /// Of each option of a node, the best that the tree below it can be. Nodes
    /// outside that tree stand as 0 in every list, so lists of one tree compare
    /// as lists of choices do.
    fn below(&self, node: usize) -> Vec<Ranked> {
        let work = &self.file.nodes[node].work;
        let children: Vec<(usize, Vec<Ranked>)> =
            work.children().map(|c| (c, self.below(c))).collect();
        let of_subject = |&subject: &usize| {
            let total = self.file.step_prices[node][subject];
            let mut sum = Ranked { total, compared: vec![0; self.places.len()] };
            sum.compared[self.places[node]] = subject;
            for (child, trees) in &children {
                let best = self.cheapest_child(*child, trees, subject);
                sum.total += best.total;
                for (into, from) in sum.compared.iter_mut().zip(best.compared) {
                    *into += from;
                }
            }
            sum
        };
        self.options[node].iter().map(of_subject).collect()
    }

    fn cheapest_child(&self, child: usize, trees: &[Ranked], parent_subject: usize) -> Ranked {
        let (size, subjects) = (self.file.nodes[child].size, &self.options[child]);
        let link = |i: usize| self.file.link_prices[subjects[i]][parent_subject];
        let cost = |i: usize| trees[i].total + size * link(i);
        let best = (0..trees.len())
            .min_by(|&i, &j| (cost(i), &trees[i].compared).cmp(&(cost(j), &trees[j].compared)))
            .expect("every node has an option");
        Ranked { total: cost(best), compared: trees[best].compared.clone() }
    }

    fn best(&self) -> Ranked {
        self.below(self.file.root()).into_iter().min().expect("every node has an option")
    }
}

pub fn by_recursion(file: &File, options: &Options) -> Ranked {
    let places = (0..file.nodes.len()).rev().collect();
    Search { file, options, places }.best()
}

/// What the choice would be if equals were compared from the first node on:
/// where it is another, a case tells the rule from its reverse.
pub fn compared_from_first(file: &File, options: &Options) -> Vec<usize> {
    let places = (0..file.nodes.len()).collect();
    Search { file, options, places }.best().compared
}
