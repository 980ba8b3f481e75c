//! Spaces that last, against runs of the same operations and against docs/formats.md.

use btspace::{answers, Answer, Field, Operation, Pages, Refusal, Space, Value, Version, HEADER_LEN, PAGES};

fn job(number: i64) -> Vec<Value> {
    vec!["job".into(), number.into()]
}

fn any_job() -> Vec<Field> {
    vec!["job".into(), Field::AnyNumber]
}

// Operations with answers of each kind, some of them refused by a space of version 1.
fn script() -> Vec<Operation> {
    let mut script = Vec::new();
    for number in 0..40 {
        script.push(Operation::Out(job(number)));
        script.push(Operation::Cas(vec!["job".into(), (number / 2).into()], job(-number)));
        script.push(Operation::RdAll(64, any_job()));
        if number % 3 == 0 {
            script.push(Operation::Inp(any_job()));
            script.push(Operation::InAll(2, any_job()));
            script.push(Operation::Rdp(vec![Field::AnyText]));
        }
        if number == 20 {
            script.push(Operation::Upgrade);
        }
    }
    script
}

#[test]
fn a_space_answers_as_a_run_does() {
    for version in [Version::One, Version::Two] {
        let told = answers(version, &script()).unwrap();
        let mut space = Space::new(version).unwrap();
        for (operation, answer) in script().iter().zip(&told) {
            assert_eq!(space.apply(operation).as_ref(), Ok(answer));
        }
    }
}

#[test]
fn pages_are_the_whole_space() {
    for version in [Version::One, Version::Two] {
        let mut space = Space::new(version).unwrap();
        for (count, operation) in script().iter().enumerate() {
            space.apply(operation).unwrap();
            if count % 16 != 15 {
                continue;
            }
            let number = count as u64 / 16 + 1;
            let (pages, header) = (space.pages().unwrap(), space.header(number).unwrap());
            let (mut other, read) = Space::from_pages(&pages, &header).unwrap();
            assert_eq!(read, number);
            assert_eq!((other.pages().unwrap(), other.header(number).unwrap()), (pages, header));
            // From here on the other is the space.
            space = other;
        }
        let told = answers(version, &script()).unwrap();
        let last = Operation::RdAll(64, any_job());
        let again: Vec<_> = script().into_iter().chain([last.clone()]).collect();
        assert_eq!(
            space.apply(&last).unwrap(),
            answers(version, &again).unwrap()[told.len()]
        );
    }
}

// The specification's page of a space of version 2 that was upgraded after `out (1)` of version 1.
#[test]
fn texts_of_pages() {
    let mut space = Space::new(Version::One).unwrap();
    space.apply(&Operation::Out(vec![1.into()])).unwrap();
    let page = |bytes: &[&[u8]]| bytes.concat();
    let tuple: &[u8] = &[1, 1, 0, 0, 0, 0, 0, 0, 0, 1];
    assert_eq!(space.pages().unwrap().texts, page(&[&[0; 8], tuple]));
    assert_eq!(
        space.header(4).unwrap(),
        [1, 0, 0, 0, 0, 0, 0, 0, 4, 0, 0, 0, 0, 0, 0, 0, 1]
    );
    space.apply(&Operation::Upgrade).unwrap();
    assert_eq!(space.pages().unwrap().texts, page(&[&[0; 8], &[0, 10], tuple]));
    assert_eq!(space.header(4).unwrap()[0], 2);
}

#[test]
fn refusals_change_nothing() {
    let mut space = Space::new(Version::One).unwrap();
    space.apply(&Operation::Out(job(1))).unwrap();
    let before = space.pages().unwrap();
    let mut take = Vec::new();
    Operation::Inp(any_job()).encode(&mut take);
    // Fewer bytes than the longest answer may have.
    for room in [0, 1, 1_024] {
        let mut answer = vec![0xaa; room];
        assert_eq!(space.apply_bytes(&take, &mut answer), Err(Refusal::TooLarge));
        assert!(answer.iter().all(|byte| *byte == 0xaa));
    }
    // A front of an operation, an operation and a byte more, and nothing.
    let mut answer = [0xaa; 1_025];
    let longer = [&take[..], &[0]].concat();
    for bytes in (0..take.len()).map(|len| &take[..len]).chain([&longer[..]]) {
        assert_eq!(space.apply_bytes(bytes, &mut answer), Err(Refusal::Malformed));
    }
    assert_eq!((space.pages().unwrap(), answer), (before, [0xaa; 1_025]));
    let len = space.apply_bytes(&take, &mut answer).unwrap();
    assert_eq!(Answer::decode(&answer[..len]), Ok(Answer::Found(job(1))));
    assert!(answer[len..].iter().all(|byte| *byte == 0xaa));
}

#[test]
fn pages_of_no_space() {
    let mut space = Space::new(Version::One).unwrap();
    for number in 0..3 {
        space.apply(&Operation::Out(job(number))).unwrap();
    }
    let (pages, header) = (space.pages().unwrap(), space.header(1).unwrap());
    let refused = |pages: &Pages, header: &[u8]| matches!(Space::from_pages(pages, header), Err(Refusal::Malformed));
    assert!(!refused(&pages, &header));
    // Another length of one page, or of all.
    for page in 0..PAGES {
        let mut other = pages.clone();
        other.lengths[page] += 1;
        assert!(refused(&other, &header));
    }
    let mut other = pages.clone();
    other.lengths[0] = usize::MAX;
    assert!(refused(&other, &header));
    // Each front of the header, and a number that is too small for its births.
    for len in 0..HEADER_LEN {
        assert!(refused(&pages, &header[..len]));
    }
    assert!(refused(&pages, &space.header(0).unwrap()));
    // Each byte changed: it is refused, or it is another space.
    for at in 0..pages.texts.len() {
        let mut other = pages.clone();
        other.texts[at] ^= 0x55;
        if let Ok((mut read, _)) = Space::from_pages(&other, &header) {
            assert_eq!(read.pages().unwrap(), other);
        }
    }
}

#[test]
fn many_spaces_at_once() {
    let mut spaces: Vec<_> = (0..50).map(|_| Space::new(Version::Two).unwrap()).collect();
    for (number, space) in spaces.iter_mut().enumerate() {
        space.apply(&Operation::Out(job(number as i64))).unwrap();
    }
    for (number, space) in spaces.iter_mut().enumerate().rev() {
        assert_eq!(
            space.apply(&Operation::Inp(any_job())).unwrap(),
            Answer::Found(job(number as i64))
        );
    }
}

#[test]
fn any_bytes() {
    let mut state = 1u64;
    let mut answer = vec![0; 70_000];
    let mut space = Space::new(Version::Two).unwrap();
    for _ in 0..20_000 {
        let mut bytes = [0u8; 8];
        for byte in &mut bytes {
            state = state.wrapping_mul(6_364_136_223_846_793_005).wrapping_add(1);
            *byte = if state >> 63 == 0 {
                0x20 + (state >> 40) as u8 % 8
            } else {
                (state >> 50) as u8 % 4
            };
        }
        for len in 0..=bytes.len() {
            if let Ok(len) = space.apply_bytes(&bytes[..len], &mut answer) {
                assert!(Answer::decode(&answer[..len]).is_ok());
            }
        }
    }
}
