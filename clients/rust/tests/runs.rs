//! Runs of the library, against docs/formats.md.

use btspace::{answers, run, Answer, Field, Operation, Ran, Refusal, Value, Version};

fn value() -> Vec<Value> {
    vec![
        (-5).into(),
        "a \"text\"\n\0".into(),
        Value::Bytes(vec![0, 255]),
        Value::Truth(true),
        Value::Tuple(vec![Value::Tuple(vec![])]),
    ]
}

#[test]
fn each_operation() {
    let any = vec![Field::Any; 5];
    let script = [
        Operation::Out(value()),
        Operation::Rdp(vec![
            Field::AnyNumber,
            Field::AnyText,
            Field::AnyBytes,
            Field::AnyTruth,
            Field::AnyTuple,
        ]),
        Operation::Cas(any.clone(), value()),
        Operation::RdAll(64, any.clone()),
        Operation::InAll(64, any.clone()),
        Operation::Inp(any.clone()),
        Operation::Inp(any),
        Operation::Cas(vec![], vec![]),
        Operation::Upgrade,
    ];
    let told = [
        Answer::Done,
        Answer::Found(value()),
        Answer::Swapped(false),
        Answer::All(vec![value()]),
        Answer::Refused,
        Answer::Found(value()),
        Answer::Absent,
        Answer::Swapped(true),
        Answer::Done,
    ];
    assert_eq!(answers(Version::One, &script).unwrap(), told);
}

#[test]
fn versions() {
    let wide = vec![Value::Wide(i128::MAX)];
    let script = [Operation::Out(wide.clone()), Operation::InAll(1, vec![Field::AnyWide])];
    assert_eq!(
        answers(Version::One, &script).unwrap(),
        [Answer::Refused, Answer::Refused]
    );
    assert_eq!(
        answers(Version::Two, &script).unwrap(),
        [Answer::Done, Answer::All(vec![wide])]
    );
}

#[test]
fn a_space_is_full() {
    for (version, most) in [(Version::One, 8_192), (Version::Two, 12_288)] {
        let script: Vec<_> = (0..=most).map(|number| Operation::Out(vec![number.into()])).collect();
        let told = answers(version, &script).unwrap();
        assert_eq!(
            (&told[most as usize - 1], &told[most as usize]),
            (&Answer::Done, &Answer::Full)
        );
    }
}

#[test]
fn refusals() {
    let too_long = Operation::Out(vec![Value::Bytes(vec![0; 1_021])]);
    assert_eq!(
        answers(Version::One, &[Operation::Upgrade, too_long]),
        Err((1, Refusal::Malformed))
    );
    let too_many = Operation::RdAll(65, vec![]);
    assert_eq!(answers(Version::One, &[too_many]), Err((0, Refusal::Malformed)));
}

#[test]
fn what_an_end_leaves() {
    let mut script = Vec::new();
    for operation in [
        Operation::Out(value()),
        Operation::Rdp(vec![Field::Any; 5]),
        Operation::Upgrade,
    ] {
        operation.encode(&mut script);
    }
    let mut whole = [0xaa; 200];
    let (ran, end) = run(Version::One, &script, &mut whole);
    assert_eq!((ran.read, end), (script.len(), Ok(())));
    // Each length of results gives the answers that fit, and leaves the rest as it was.
    for len in 0..ran.written {
        let mut results = vec![0xaa; len];
        let (some, end) = run(Version::One, &script, &mut results);
        assert_eq!(end, Err(Refusal::TooLarge));
        assert!(some.read < ran.read && some.written <= len);
        assert_eq!(results[..some.written], whole[..some.written]);
        assert!(results[some.written..].iter().all(|byte| *byte == 0xaa));
    }
    // Each front of the script is read as far as it spells operations.
    for len in 0..script.len() {
        let (some, end) = run(Version::One, &script[..len], &mut whole);
        assert_eq!(end.is_ok(), some.read == len);
        assert!(end.is_ok() || end == Err(Refusal::Malformed));
    }
}

#[test]
fn any_bytes() {
    let mut state = 1u64;
    let mut results = vec![0; 70_000];
    for _ in 0..20_000 {
        let mut bytes = [0u8; 24];
        for byte in &mut bytes {
            state = state.wrapping_mul(6_364_136_223_846_793_005).wrapping_add(1);
            *byte = if state >> 63 == 0 {
                0x20 + (state >> 40) as u8 % 8
            } else {
                (state >> 50) as u8 % 8
            };
        }
        let (ran, end) = run(Version::Two, &bytes, &mut results);
        assert_eq!(end.is_ok(), ran.read == bytes.len());
        assert!(Answer::decode_all(&results[..ran.written]).is_ok());
    }
    assert_eq!(run(Version::One, &[], &mut []), (Ran::default(), Ok(())));
}
