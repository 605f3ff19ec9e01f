//! How much stack a call takes: it runs on a thread whose stack is painted before.

use std::ffi::c_void;
use std::hint::black_box;

use crate::files::File;
use crate::sides::{Library, Ordinary, Rooms, Side};

const PAINT: u8 = 0x5c;
const PAGE: usize = 4096;
const PAGES: usize = 4096;

#[derive(Clone)]
#[repr(align(4096))]
struct Page([u8; PAGE]);

/// A pthread_attr_t, or more: C libraries differ in its length.
#[repr(C, align(16))]
struct Attributes([u8; 256]);

type Start = extern "C" fn(*mut c_void) -> *mut c_void;

unsafe extern "C" {
    fn pthread_attr_init(attributes: *mut Attributes) -> i32;
    fn pthread_attr_setstack(attributes: *mut Attributes, stack: *mut c_void, size: usize) -> i32;
    fn pthread_attr_destroy(attributes: *mut Attributes) -> i32;
    fn pthread_create(
        thread: *mut usize,
        attributes: *const Attributes,
        start: Start,
        argument: *mut c_void,
    ) -> i32;
    fn pthread_join(thread: usize, value: *mut *mut c_void) -> i32;
}

/// A call that is to be run, and where the stack was when it was called.
struct Job<'a> {
    run: fn(&File, &mut Rooms),
    file: &'a File,
    rooms: Box<Rooms>,
    called_at: usize,
}

extern "C" fn start(job: *mut c_void) -> *mut c_void {
    // SAFETY: a job, which its maker leaves alone until the thread has ended.
    let job = unsafe { &mut *job.cast::<Job>() };
    let here = 0u8;
    job.called_at = (&raw const here).addr();
    (job.run)(job.file, &mut job.rooms);
    black_box(&here);
    std::ptr::null_mut()
}

/// Runs a job on a thread that has these pages for its stack.
fn run_on(pages: &mut [Page], job: &mut Job) -> bool {
    let mut attributes = Attributes([0; 256]);
    let (mut thread, mut value) = (0, std::ptr::null_mut());
    let (stack, size) = (pages.as_mut_ptr().cast(), size_of_val(pages));
    // SAFETY: records of our own. The pages and the job outlive the thread, and are
    // looked at only when it has ended.
    unsafe {
        pthread_attr_init(&mut attributes) == 0
            && pthread_attr_setstack(&mut attributes, stack, size) == 0
            && pthread_create(&mut thread, &attributes, start, (&raw mut *job).cast()) == 0
            && pthread_join(thread, &mut value) == 0
            && pthread_attr_destroy(&mut attributes) == 0
    }
}

/// The bytes between where a call was made and the farthest that was written to.
fn used(run: fn(&File, &mut Rooms), file: &File) -> Result<usize, String> {
    let mut pages = vec![Page([PAINT; PAGE]); PAGES];
    let mut job = Job { run, file, rooms: Rooms::new(), called_at: 0 };
    if !run_on(&mut pages, &mut job) {
        return Err("no thread with a stack of our own".into());
    }
    let untouched = pages.iter().flat_map(|page| &page.0).take_while(|&&byte| byte == PAINT);
    let farthest = pages.as_ptr().addr() + untouched.count();
    if farthest < pages.as_ptr().addr() + PAGE {
        return Err("the stack was too small".into());
    }
    Ok(job.called_at - farthest)
}

fn cheapest<S: Side>(file: &File, rooms: &mut Rooms) {
    S::cheapest(&file.bytes, rooms).expect("the files are answered");
}

fn candidates<S: Side>(file: &File, _: &mut Rooms) {
    let root = usize::from(file.values.header.nodes) - 1;
    S::candidates(&file.bytes, root).expect("the files are answered");
}

pub fn print(files: &[File]) -> Result<(), String> {
    println!("bytes of stack            ordinary      library");
    for file in files {
        let row = |call: &str, ordinary, library| -> Result<(), String> {
            let name = format!("{}, {call}", file.name);
            println!("{name:<25} {:>8} {:>12}", used(ordinary, file)?, used(library, file)?);
            Ok(())
        };
        row("cheapest", cheapest::<Ordinary>, cheapest::<Library>)?;
        row("candidates", candidates::<Ordinary>, candidates::<Library>)?;
    }
    Ok(())
}
