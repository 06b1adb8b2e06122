// The wrapper: document 01's listing, some of its runs, and words that are no catalogue.
use goravesha::{Catalogue, Reason, Refused, Sizes, Step};

const SIZES: Sizes = Sizes { workers: 2, items: 2, nodes: 8, projects: 4, counter: 16 };

fn refused<T>(reason: Reason) -> Result<T, Refused> {
    Err(Refused { reason, steps: 0 })
}

#[test]
fn the_listing() {
    let mut words = vec![7; SIZES.words()];
    let mut c = Catalogue::make(&mut words, SIZES).unwrap();
    assert_eq!(c.register(1, 100), Ok(0));
    c.start_take_snapshot(0).unwrap();
    assert_eq!(c.step(0), Ok(Step::Running { steps: 1 }));
    assert_eq!(c.step(0), Ok(Step::Finished { value: 0, steps: 2 }));
    c.start_vcas(1, 0, 1, 2).unwrap();
    for steps in 1..=5 {
        assert_eq!(c.step(1), Ok(Step::Running { steps }));
    }
    c.start_read_snapshot(0, 0, 0).unwrap();
    assert_eq!(c.finish(0), Ok((1, 6)));
}

#[test]
fn a_total_and_the_same_again() {
    let mut words = vec![0; SIZES.words()];
    let mut c = Catalogue::make(&mut words, SIZES).unwrap();
    c.register(1, 100).unwrap();
    c.register(1, u32::MAX).unwrap();
    c.start_take_snapshot(0).unwrap();
    let (handle, _) = c.finish(0).unwrap();
    c.start_total(0, 1, handle as u32).unwrap();
    assert_eq!(c.finish(0), Ok((100 + u64::from(u32::MAX), 7)));
    c.start_vcas(1, 0, 1, 2).unwrap();
    assert_eq!(c.finish(1), Ok((1, 9)));
    c.start_total(0, 1, handle as u32).unwrap();
    assert_eq!(c.finish(0), Ok((100 + u64::from(u32::MAX), 8)));
    c.start_vread(0, 0).unwrap();
    assert_eq!(c.finish(0), Ok((2, 3)));
}

#[test]
fn refusals() {
    let mut words = vec![0; SIZES.words()];
    assert!(matches!(Catalogue::make(&mut words[1..], SIZES), Err(Refused { reason: Reason::BadSize, steps: 0 })));
    let mut c = Catalogue::make(&mut words, Sizes { nodes: 1, counter: 1, ..SIZES }).unwrap();
    assert_eq!(c.step(0), refused(Reason::WorkerIdle));
    assert_eq!(c.step(2), refused(Reason::NoSuchWorker));
    assert_eq!(c.abandon(2), refused(Reason::NoSuchWorker));
    assert_eq!(c.start_vread(0, 0), refused(Reason::NotRegistered));
    assert_eq!(c.register(4, 1), refused(Reason::NoSuchProject));
    assert_eq!(c.register(1, 1), Ok(0));
    assert_eq!(c.register(1, 1), refused(Reason::NodesFull));
    assert_eq!(c.start_total(0, 1, 0), refused(Reason::NoSuchHandle));
    c.start_vcas(0, 0, 1, 2).unwrap();
    assert_eq!(c.start_vread(0, 0), refused(Reason::WorkerBusy));
    assert_eq!(c.finish(0), Err(Refused { reason: Reason::NodesFull, steps: 4 }));
    c.start_take_snapshot(1).unwrap();
    assert_eq!(c.finish(1), Ok((0, 2)));
    c.start_take_snapshot(1).unwrap();
    assert_eq!(c.finish(1), Err(Refused { reason: Reason::CounterFull, steps: 1 }));
    assert_eq!(c.start_read_snapshot(0, 0, 1), refused(Reason::NoSuchHandle));
    let said = c.step(0).unwrap_err().to_string();
    assert_eq!(said, "refused with number 5: The worker is idle; there is no operation to step or to abandon.");
}

/// A vCAS abandoned after so many steps: whether its change stands, and how many nodes were ever taken once another vCAS of the worker has changed the item.
fn abandoned_after(steps: u32) -> (bool, u32) {
    let mut words = vec![0; SIZES.words()];
    let mut c = Catalogue::make(&mut words, SIZES).unwrap();
    c.register(1, 100).unwrap();
    c.start_vcas(0, 0, 1, 2).unwrap();
    for _ in 0..steps {
        c.step(0).unwrap();
    }
    c.abandon(0).unwrap();
    assert_eq!(c.abandon(0), refused(Reason::WorkerIdle));
    c.start_vread(1, 0).unwrap();
    let present = c.finish(1).unwrap().0 as u32;
    c.start_vcas(0, 0, present, 3).unwrap();
    assert_eq!(c.finish(0), Ok((1, 9)));
    (present == 2, c.words()[7])
}

#[test]
fn an_abandoned_relink_stands_once_it_is_published() {
    for steps in 0..=4 {
        assert_eq!(abandoned_after(steps), (false, 2)); // also the node taken at line 45 is taken again
    }
    for steps in 5..=8 {
        assert_eq!(abandoned_after(steps), (true, 3));
    }
}

#[test]
fn words_that_are_no_catalogue() {
    for length in [0, 1, 15, 16, 100] {
        let mut words = vec![u32::MAX; length];
        let mut c = Catalogue::over(&mut words);
        assert_eq!(c.register(0, 0), refused(Reason::Damaged));
        assert_eq!(c.step(0), refused(Reason::Damaged));
        assert_eq!(c.abandon(0), refused(Reason::Damaged));
        assert!(words.iter().all(|word| *word == u32::MAX));
    }
}
