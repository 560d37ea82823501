//! What is asked of the allocator: by `starts_to_vec` the room of its upload, at once, of which it keeps what the index
//! needs; by `members_to_vec` the slots of all members at once and the list; by all else of a data type nothing.

mod common;

use std::alloc::{GlobalAlloc, Layout, System};
use std::cell::RefCell;

use common::{rig, types};
use vindaskot::index::{starts_to_vec, starts_to_vec_in};
use vindaskot::{DataType, DataTypeIterator, MEMBER_SLOTS, MemberPlace, Mode, Refusal, room};

thread_local! {
    /// The bytes of each request of this thread, in order; none are noted outside of `requests`.
    static NOTED: RefCell<Option<Vec<usize>>> = const { RefCell::new(None) };
}

struct Noting;

#[global_allocator]
static ALLOCATOR: Noting = Noting;

fn note(bytes: usize) {
    // Where this asks for memory itself, the list is borrowed already.
    NOTED.with(|noted| {
        if let Ok(mut noted) = noted.try_borrow_mut() {
            noted.iter_mut().for_each(|requests| requests.push(bytes));
        }
    });
}

// SAFETY: each call is the system allocator's.
unsafe impl GlobalAlloc for Noting {
    unsafe fn alloc(&self, layout: Layout) -> *mut u8 {
        note(layout.size());
        unsafe { System.alloc(layout) }
    }
    unsafe fn alloc_zeroed(&self, layout: Layout) -> *mut u8 {
        note(layout.size());
        unsafe { System.alloc_zeroed(layout) }
    }
    unsafe fn realloc(&self, at: *mut u8, layout: Layout, size: usize) -> *mut u8 {
        note(size);
        unsafe { System.realloc(at, layout, size) }
    }
    unsafe fn dealloc(&self, at: *mut u8, layout: Layout) {
        unsafe { System.dealloc(at, layout) }
    }
}

/// What a call asks for, and how many starts or members it gives.
fn requests<T>(call: impl FnOnce() -> Result<Vec<T>, Refusal>) -> (Vec<usize>, usize) {
    NOTED.set(Some(Vec::new()));
    let given = call().unwrap();
    (NOTED.take().unwrap(), given.len())
}

#[test]
fn the_room_is_set_aside_at_once_and_the_rest_given_back() {
    let mut upload = rig();
    upload.resize(20_000, 0xFF);
    for length in [33, 100, 2352, 2353, 20_000] {
        let upload = &upload[..length];
        let all = 4 * room(length).unwrap();
        let (asked, used) = requests(|| starts_to_vec(upload));
        // What shrinks to nothing is freed and not asked for anew.
        let kept = (used > 0).then_some(4 * used);
        assert!(asked.iter().copied().eq([all].into_iter().chain(kept)));
        let (asked_in, _) = requests(|| starts_to_vec_in(upload, Mode::Present));
        assert_eq!(asked_in, asked);
    }
}

#[test]
fn the_slots_of_all_members_are_set_aside_at_once() {
    let upload = types();
    let mut counts = Vec::new();
    for item in DataTypeIterator::new(&upload) {
        let root = item.unwrap();
        for mode in [Mode::Present, Mode::Checked] {
            let (asked, members) = requests(|| root.members_to_vec_in(mode));
            let expected = match members {
                0 => vec![],
                _ => [
                    size_of::<[u64; MEMBER_SLOTS]>(),
                    size_of::<MemberPlace<'_>>(),
                ]
                .map(|one| one * members)
                .to_vec(),
            };
            assert_eq!(asked, expected);
            counts.push(members);
        }
    }
    assert_eq!(
        counts,
        [
            4, 4, 7, 7, 20, 20, 0, 0, 0, 0, 1, 1, 9, 9, 0, 0, 7, 7, 12, 12, 11, 11
        ]
    );
}

/// Reading, lists, members by number and in lent slots: all of it stands in the upload, the slots and the records.
#[test]
fn a_data_type_asks_for_no_memory() {
    fn all(upload: &[u8], slots: &mut [u64]) -> Result<usize, Refusal> {
        let mut seen = 0;
        for item in DataTypeIterator::new(upload) {
            let root = item?;
            for (number, passed) in root.members(slots)?.enumerate() {
                let member = root.member(number)?.data_type();
                let read = DataType::try_from_slice_in(passed.read()?.as_bytes(), Mode::Checked)?;
                let lists = [read.arrays().len(), read.attributes().count()];
                seen += usize::from(read == member) + lists.iter().sum::<usize>();
            }
        }
        Ok(seen)
    }
    let upload = types();
    let mut slots = [0; 60];
    let mut seen = 0;
    let (asked, _) = requests(|| {
        seen = all(&upload, &mut slots)?;
        Ok(Vec::<()>::new())
    });
    assert_eq!(asked, []);
    // Of 71 members, arrays of five dimensions and 16 attributes.
    assert_eq!(seen, 71 + 5 + 16);
}
