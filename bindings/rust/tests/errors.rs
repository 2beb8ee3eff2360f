//! Errors tell what is refused, and where.
use enforce::{Claim, Error, Form, Output, Refused, Signed, Slot};
use std::error::Error as _;

const KEY: [u8; 33] = [2; 33];

/// A claim on an output that anyone with the key can spend.
fn claim() -> Claim {
    let script = [&[33][..], &KEY, &[0xac]].concat(); // KEY CHECKSIG
    let program = enforce::program(&script).expect("a program").to_vec();
    Claim { txid: [7; 32], index: 1, value: 5_000, script, program, path: 0, slots: vec![Slot::Signature(KEY)] }
}

#[test]
fn a_refusal_has_its_word_and_its_number() {
    let error = enforce::paths(&[0x51, 0xff]).expect_err("ff is not an opcode");
    assert_eq!(error, Error::Refused(Refused::BadOpcode(1)));
    assert_eq!(error.to_string(), "BadOpcode 1: A byte of the script is none of the opcodes that are listed here, though it may be one of Bitcoin's, as SHA256; the answer has its position.");
    assert!(error.source().is_none());
}

#[test]
fn a_refusal_has_its_status() {
    let error = Form::KeyHash { key: [4; 33] }.script().expect_err("04 begins no compressed key");
    assert_eq!(error.refused().map(Refused::status), Some(enforce::raw::NOT_A_KEY));
}

#[test]
fn a_refusal_names_the_claim_and_its_slot() {
    let other = Claim { index: 2, slots: vec![Slot::Exact(vec![0; 521])], ..claim() };
    let error = enforce::unsigned_spend(&[claim(), other], &[], &[]).expect_err("521 bytes are too many");
    assert_eq!(error, Error::Claim { claim: 1, source: Refused::ItemTooLong(0) });
    assert_eq!(error.to_string(), "slot 0 of claim 1 is refused");
}

#[test]
fn a_refusal_names_the_output() {
    let outputs = [4_000, u64::MAX].map(|value| Output { value, script: vec![0x51] });
    let error = enforce::unsigned_spend(&[claim()], &outputs, &[]).expect_err("there are not so many satoshis");
    assert_eq!(error, Error::Output { output: 1, source: Refused::ValueTooLarge });
}

#[test]
fn the_source_of_an_error_with_a_place_is_its_refusal() {
    let output = Output { value: 4_000, script: vec![0x51] };
    let given = Signed { input: 0, item: 0, signature: vec![0x30; 9] };
    let error = enforce::finish(&[claim()], &[output], &[], &[given]).expect_err("this is not DER");
    assert_eq!(error, Error::Signature { input: 0, item: 0, source: Refused::NotDer });
    assert_eq!(error.to_string(), "the signature of item 0 of input 0 is refused");
    assert_eq!(error.source().map(ToString::to_string).as_deref(), Some("NotDer: Bytes that are to be a signature are not strict DER (BIP 66) with the byte of its hash type after it."));
}
