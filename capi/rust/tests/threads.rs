//! Queue and set with real threads, and what a drop frees.

use mooringakee::{NotInserted, Queue, Set, Unmade, Untold, Why};
use std::sync::atomic::{AtomicUsize, Ordering};
use std::thread;

#[test]
fn values_are_taken_in_order_and_the_rest_is_dropped() {
    static DROPPED: AtomicUsize = AtomicUsize::new(0);
    struct Counted(usize, usize);
    impl Drop for Counted {
        fn drop(&mut self) {
            DROPPED.fetch_add(1, Ordering::Relaxed);
        }
    }
    const EACH: usize = 5_000;
    let mut queue = Queue::new(256, 4).unwrap();
    let mut taker = queue.pass().unwrap();
    let putters: Vec<_> = (0..3)
        .map(|putter| {
            let mut pass = queue.pass().unwrap();
            thread::spawn(move || {
                for at in 0..EACH {
                    let mut value = Counted(putter, at);
                    while let Err(refused) = pass.enqueue(value) {
                        assert_eq!(refused.why, Why::Full);
                        value = refused.value;
                        thread::yield_now();
                    }
                }
            })
        })
        .collect();
    assert!(queue.pass().is_none());
    let mut next = [0; 3];
    while next.iter().sum::<usize>() < 3 * EACH - 10 {
        match taker.dequeue() {
            Some(Counted(putter, at)) => {
                assert_eq!(next[putter], at);
                next[putter] += 1;
            }
            None => thread::yield_now(),
        }
    }
    for putter in putters {
        putter.join().unwrap();
    }
    assert_eq!(DROPPED.load(Ordering::Relaxed), 3 * EACH - 10);
    drop(taker);
    assert_eq!(DROPPED.load(Ordering::Relaxed), 3 * EACH);
}

#[test]
fn keys_are_inserted_once_and_removed_once() {
    insert_and_remove(Set::new(1024, 16, 4).unwrap());
}

#[test]
fn so_they_are_while_buckets_double() {
    insert_and_remove(Set::split_ordered(1024, 64, 4).unwrap());
}

fn insert_and_remove(mut set: Set) {
    let threads: Vec<_> = (0..4)
        .map(|_| {
            let mut pass = set.pass().unwrap();
            thread::spawn(move || {
                let inserted = (0..500).filter(|key| pass.insert(*key) == Ok(true)).count();
                let removed = (0..250).filter(|key| pass.remove(*key)).count();
                (inserted, removed, pass)
            })
        })
        .collect();
    let mut ended: Vec<_> = threads
        .into_iter()
        .map(|thread| thread.join().unwrap())
        .collect();
    let (inserted, removed) = ended
        .iter()
        .fold((0, 0), |sum, one| (sum.0 + one.0, sum.1 + one.1));
    let pass = &mut ended[0].2;
    assert_eq!(
        (0..1000).filter(|key| pass.contains(*key)).count(),
        inserted - removed
    );
    let told: Vec<_> = ended.into_iter().map(|one| one.2.close()).collect();
    assert_eq!(told[..3], [Err(Untold::Others); 3]);
    let counts = told[3].unwrap();
    assert_eq!(counts.given, counts.reused + u64::from(counts.linked));
    assert!(counts.linked as usize >= inserted - removed);
}

#[test]
fn values_that_borrow_and_values_without_bytes() {
    let text = String::from("one two");
    let mut queue = Queue::new(8, 1).unwrap();
    let mut pass = queue.pass().unwrap();
    for word in text.split(' ') {
        pass.enqueue(word).unwrap();
    }
    assert_eq!(
        (pass.dequeue(), pass.dequeue(), pass.dequeue()),
        (Some("one"), Some("two"), None)
    );
    let mut queue = Queue::new(8, 1).unwrap();
    let mut pass = queue.pass().unwrap();
    pass.enqueue(()).unwrap();
    assert_eq!((pass.dequeue(), pass.dequeue()), (Some(()), None));
}

#[test]
fn refusals() {
    assert_eq!(Queue::<u8>::new(1, 1).unwrap_err(), Unmade::Shape);
    assert_eq!(Queue::<u8>::new(65_536, 1).unwrap_err(), Unmade::Shape);
    assert_eq!(Queue::<u8>::new(8, 0).unwrap_err(), Unmade::Shape);
    assert_eq!(Queue::<u8>::new(8, 17).unwrap_err(), Unmade::Shape);
    assert_eq!(Set::new(8, 0, 1).unwrap_err(), Unmade::Shape);
    assert_eq!(Set::new(8, 258, 1).unwrap_err(), Unmade::Shape);
    assert_eq!(Set::split_ordered(8, 0, 1).unwrap_err(), Unmade::Shape);
    assert_eq!(Set::split_ordered(8, 3, 1).unwrap_err(), Unmade::Shape);
    assert_eq!(Set::split_ordered(8, 512, 1).unwrap_err(), Unmade::Shape);
    assert_eq!(Set::new(8, 4, 1).unwrap().pass().unwrap().buckets(), None);
    let mut pass = Queue::new(2, 1).unwrap().pass().unwrap();
    pass.enqueue(7).unwrap();
    let refused = pass.enqueue(8).unwrap_err();
    assert_eq!((refused.value, refused.why), (8, Why::Full));
    let mut pass = Set::new(2, 1, 1).unwrap().pass().unwrap();
    assert_eq!((pass.insert(1), pass.insert(2)), (Ok(true), Ok(true)));
    assert_eq!(pass.insert(3), Err(NotInserted::Full));
    assert_eq!(pass.insert(2), Ok(false));
}
