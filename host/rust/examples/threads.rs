//! A service with threads: three threads relink thirty items between projects, a fourth keeps asking for the room's page. A mutex stands around the
//! catalogue and is let go after every step, so the page's totals and the relinks go on side by side. Each page adds up all the same.
use goravesha::{Catalogue, Refused, Sizes, Step};
use std::sync::Mutex;
use std::thread;

const RELINKERS: u32 = 3;
const PAGE: u32 = RELINKERS;
const RELINKS_EACH: u32 = 1000;
const ITEMS: u32 = 30;
/// A node for each item and each relink, and one for each relink under way.
const NODES: u32 = ITEMS + RELINKERS * RELINKS_EACH + RELINKERS;
const SIZES: Sizes = Sizes { workers: RELINKERS + 1, items: ITEMS, nodes: NODES, projects: 6, counter: 4_294_967_294 };

struct Room<'w> {
    catalogue: Mutex<Catalogue<'w>>,
}

impl<'w> Room<'w> {
    fn locked<T>(&self, call: impl FnOnce(&mut Catalogue<'w>) -> T) -> T {
        call(&mut self.catalogue.lock().expect("no thread ended in a call"))
    }

    /// The started operation of a worker, step by step; others are let in between.
    fn finish_in_turns(&self, worker: u32) -> Result<u64, Refused> {
        loop {
            if let Step::Finished { value, .. } = self.locked(|c| c.step(worker))? {
                return Ok(value);
            }
        }
    }

    fn present_project(&self, worker: u32, item: u32) -> Result<u32, Refused> {
        self.locked(|c| {
            c.start_vread(worker, item)?;
            Ok(c.finish(worker)?.0 as u32)
        })
    }

    /// Each item in turn to the next project. A relink that comes too late is decided anew from what the item is charged to by then.
    fn relinker(&self, worker: u32) -> Result<(), Refused> {
        for done in 0..RELINKS_EACH {
            let item = (done + worker) % ITEMS;
            loop {
                let from = self.present_project(worker, item)?;
                self.locked(|c| c.start_vcas(worker, item, from, (from + 1) % SIZES.projects))?;
                if self.finish_in_turns(worker)? == 1 {
                    break;
                }
            }
        }
        Ok(())
    }

    /// The sizes of all projects at a snapshot.
    fn page(&self) -> Result<Vec<u64>, Refused> {
        let handle = self.locked(|c| {
            c.start_take_snapshot(PAGE)?;
            c.finish(PAGE)
        })?.0 as u32;
        (0..SIZES.projects).map(|project| {
            self.locked(|c| c.start_total(PAGE, project, handle))?;
            self.finish_in_turns(PAGE)
        }).collect()
    }
}

fn main() -> Result<(), Refused> {
    let mut words = vec![0; SIZES.words()];
    let mut catalogue = Catalogue::make(&mut words, SIZES)?;
    let size_of = |item: u32| 100 * (item + 1);
    for item in 0..ITEMS {
        catalogue.register(item % SIZES.projects, size_of(item))?;
    }
    let all: u64 = (0..ITEMS).map(|item| u64::from(size_of(item))).sum();
    let room = Room { catalogue: Mutex::new(catalogue) };
    let pages = thread::scope(|scope| {
        let relinkers: Vec<_> = (0..RELINKERS).map(|worker| scope.spawn({ let room = &room; move || room.relinker(worker) })).collect();
        let mut pages = 0;
        while relinkers.iter().any(|relinker| !relinker.is_finished()) {
            assert_eq!(room.page()?.iter().sum::<u64>(), all, "the page is not of one moment");
            pages += 1;
        }
        for relinker in relinkers {
            relinker.join().expect("a relinker ends")?;
        }
        Ok(pages)
    })?;
    // When all is quiet the page is what the items say one by one.
    let mut by_item = vec![0; SIZES.projects as usize];
    for item in 0..ITEMS {
        by_item[room.present_project(PAGE, item)? as usize] += u64::from(size_of(item));
    }
    assert_eq!(room.page()?, by_item);
    println!("{pages} pages of {} projects while {RELINKERS} threads made {} relinks: each page added up to {all} MiB", SIZES.projects, RELINKERS * RELINKS_EACH);
    Ok(())
}
