//! What holds of generated modules.

use compare::{answer_plain, leaves_out_arguments, Linked};
use generator::{faults, valid, Rng, Scale};
use sheets::{decode_hosts, decode_sheet, encode_hosts, encode_sheet};

#[test]
fn valid_modules_are_accepted_and_read_back() {
    let (mut several_exports, mut leave_out) = ([0; 2], [0; 2]);
    for index in 0..5000 {
        let mut rng = Rng::new(1, index);
        let scale = Scale::any(&mut rng);
        let draft = valid(&mut rng, &scale);
        let answer = answer_plain(&draft.sheet, &draft.hosts);
        assert_eq!(answer.numbers[0], 0, "case {index}: {:?}", answer.numbers);
        let table = answer.table.expect("accepted");
        assert!(Linked::read(&table).is_some(), "case {index}");
        let edition = draft.sheet.edition as usize - 1;
        several_exports[edition] += u32::from(draft.sheet.exports.len() > 1);
        leave_out[edition] += u32::from(leaves_out_arguments(&draft.sheet));
        let words = encode_sheet(&draft.sheet);
        assert!(table.len() + 6 <= 5 * words.words.len(), "case {index}");
        let (sheet, n) = decode_sheet(&words.to_bytes()).expect("whole");
        assert_eq!((sheet, n as usize), (draft.sheet, words.words.len()));
        let hosts = encode_hosts(&draft.hosts).to_bytes();
        assert_eq!(decode_hosts(&hosts).as_ref(), Some(&draft.hosts));
    }
    // In the second edition too, where names are read.
    let [first, second] = several_exports;
    assert!(first >= 1_200 && second >= 600, "{first}, {second}");
    let [first, second] = leave_out;
    assert!(first == 0 && second >= 350, "{first}, {second}");
}

#[test]
fn every_aimed_fault_hits() {
    for fault in faults() {
        let mut hits = 0;
        for index in 0..200 {
            let mut rng = Rng::new(2, index);
            let scale = Scale::any(&mut rng);
            let mut draft = valid(&mut rng, &scale);
            (fault.apply)(&mut rng, &mut draft);
            let [kind, word, ..] = answer_plain(&draft.sheet, &draft.hosts).numbers;
            hits += u32::from((kind, word) == (fault.kind, fault.word));
        }
        println!("{}: {hits} of 200", fault.name);
        assert!(hits >= 20, "{} hits {hits} times of 200", fault.name);
    }
}
