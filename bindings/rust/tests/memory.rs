//! What a log of 24 MB takes of memory, converted, reported and compared.
use std::alloc::{GlobalAlloc, Layout, System};
use std::io::{self, Read};
use std::path::Path;
use std::sync::atomic::{AtomicUsize, Ordering};
use yirvagul::{compare, Handling, Input, LogConverter, Output, Report};

/// Counts what is held, and the most that was.
struct Counting;

static HELD: AtomicUsize = AtomicUsize::new(0);
static MOST: AtomicUsize = AtomicUsize::new(0);

// SAFETY: the system's allocator, with a count beside it.
unsafe impl GlobalAlloc for Counting {
    unsafe fn alloc(&self, layout: Layout) -> *mut u8 {
        let held = HELD.fetch_add(layout.size(), Ordering::SeqCst) + layout.size();
        MOST.fetch_max(held, Ordering::SeqCst);
        System.alloc(layout)
    }

    unsafe fn dealloc(&self, at: *mut u8, layout: Layout) {
        HELD.fetch_sub(layout.size(), Ordering::SeqCst);
        System.dealloc(at, layout)
    }
}

#[global_allocator]
static COUNTING: Counting = Counting;

const BYTES: u64 = 24 << 20;

/// The most that a run holds at a time.
fn held(run: impl FnOnce()) -> usize {
    let before = HELD.load(Ordering::SeqCst);
    MOST.store(before, Ordering::SeqCst);
    run();
    MOST.load(Ordering::SeqCst) - before
}

#[test]
fn a_few_megabytes_are_held() {
    let small = b"bits\t8\tLE\t0\t64\tzero\tzero\n";
    let large = b"bits\t8\tBE\t0\t64\tzero\tzero\narray\t0\t512\n";
    let path = Path::new(env!("CARGO_TARGET_TMPDIR")).join("memory");
    for sheet in [&small[..], large] {
        for (jobs, most) in [(1, 5 << 20), (2, 18 << 20)] {
            let converter = || LogConverter::new(sheet, sheet, Handling::Stop).jobs(jobs);
            let mut zeros = io::repeat(0).take(BYTES);
            let to_path = held(|| {
                converter()
                    .convert(Input::Stream(&mut zeros), &path)
                    .unwrap();
            });
            let to_writer = held(|| {
                let output = Output::File(&mut io::sink());
                converter().convert(&path, output).unwrap();
            });
            assert_eq!(std::fs::metadata(&path).unwrap().len(), BYTES);
            assert!(
                to_path < most && to_writer < most,
                "{jobs}: {to_path}, {to_writer}"
            );
        }
    }
    std::fs::remove_file(path).unwrap();
    // no more than a million records
    let small = b"int\t4\tLE\t0\t32\tzero\tzero\tunsigned\narray\t0\t8\n";
    let large = b"int\t1\tLE\t0\t8\tzero\tzero\tunsigned\narray\t0\t4096\n";
    for sheet in [&small[..], large] {
        let mut zeros = io::repeat(0).take(BYTES);
        let reported = held(|| {
            let mut report = Report::new(sheet).unwrap();
            report.add(sheet, Input::Stream(&mut zeros)).unwrap();
        });
        assert!(reported < 6 << 20, "{reported}");
    }
    // nothing differs, and everything
    for sheet in [&small[..], large] {
        for byte in [0, 255] {
            let mut first = io::repeat(0).take(BYTES / 16);
            let mut second = io::repeat(byte).take(BYTES / 16);
            let mut rows = 0;
            let compared = held(|| {
                let (first, second) = (Input::Stream(&mut first), Input::Stream(&mut second));
                rows = compare(sheet, sheet, first, second).unwrap().count();
            });
            assert_eq!(rows > 0, byte > 0);
            assert!(compared < 7 << 20, "{compared}");
        }
    }
}
