//! From a to_local script to the signed transaction that takes its output after the delay. Reads words from standard input, which c/sign.c names. Signs by the system's libsecp256k1; the crate `secp256k1` does the same.
use enforce::{Claim, Form, MissingSignature, Output, Signed};
use std::{error, ffi::c_int, ffi::c_uint, io, ptr};

type Context = *const u8;

#[link(name = "secp256k1")]
unsafe extern "C" {
    fn secp256k1_context_create(flags: c_uint) -> Context;
    fn secp256k1_ec_pubkey_create(context: Context, key: *mut [u8; 64], secret: *const [u8; 32]) -> c_int;
    fn secp256k1_ec_pubkey_serialize(context: Context, bytes: *mut u8, length: *mut usize, key: *const [u8; 64], flags: c_uint) -> c_int;
    fn secp256k1_ecdsa_sign(context: Context, signature: *mut [u8; 64], digest: *const [u8; 32], secret: *const [u8; 32], nonce: *const u8, data: *const u8) -> c_int;
    fn secp256k1_ecdsa_signature_serialize_der(context: Context, bytes: *mut u8, length: *mut usize, signature: *const [u8; 64]) -> c_int;
}

fn key_of(context: Context, secret: &[u8; 32]) -> [u8; 33] {
    let (mut key, mut bytes, mut length) = ([0; 64], [0; 33], 33);
    // SAFETY: each pointer is of an array of the length that the library asks for, or of the length that is told; 0x102 asks for the compressed key.
    let made = unsafe { secp256k1_ec_pubkey_create(context, &mut key, secret) & secp256k1_ec_pubkey_serialize(context, bytes.as_mut_ptr(), &mut length, &key, 0x102) };
    assert!(made == 1 && length == 33, "the secret is not one of the curve");
    bytes
}

fn signed(context: Context, secret: &[u8; 32], it: &MissingSignature) -> Signed {
    let (mut made, mut der, mut length) = ([0; 64], vec![0; 72], 72);
    // SAFETY: as above; NULL asks for the nonce of RFC 6979.
    let signs = unsafe {
        secp256k1_ecdsa_sign(context, &mut made, &it.digest, secret, ptr::null(), ptr::null()) & secp256k1_ecdsa_signature_serialize_der(context, der.as_mut_ptr(), &mut length, &made)
    };
    assert!(signs == 1, "nothing is signed");
    der.truncate(length);
    der.push(1); // SIGHASH_ALL
    Signed { input: it.input, item: it.item, signature: der }
}

fn bytes(word: &str) -> Vec<u8> {
    (0..word.len() / 2).map(|at| u8::from_str_radix(&word[2 * at..2 * at + 2], 16).expect("hexadecimal digits")).collect()
}

fn array<const N: usize>(word: &str) -> [u8; N] {
    bytes(word).try_into().expect("a word of this length")
}

fn main() -> Result<(), Box<dyn error::Error>> {
    let text = io::read_to_string(io::stdin())?;
    let [secret, revocation, delay, txid, index, value, fee, program] = text.split_whitespace().collect::<Vec<_>>()[..] else { return Err("eight words are read".into()) };
    let (secret, context, value) = (array(secret), unsafe { secp256k1_context_create(1) }, value.parse()?);
    let key = key_of(context, &secret);
    let script = Form::ToLocal { revocation: array(revocation), delay_blocks: delay.parse()?, delayed: key }.script()?;
    let path = enforce::paths(&script)?.iter().position(|it| it.age.is_some()).expect("a path has the delay");
    let slots = enforce::path_slots(&script, path, &[key], &[])?;
    let claim = Claim { txid: enforce::reversed_id(array(txid)), index: index.parse()?, value, program: enforce::program(&script)?.to_vec(), script, path, slots };
    eprintln!("can be mined {} blocks after its output", claim.accept()?.sequence);
    let (claims, outputs) = ([claim], [Output { value: value.saturating_sub(fee.parse()?), script: bytes(program) }]);
    let spend = enforce::unsigned_spend(&claims, &outputs, &[])?;
    let signatures: Vec<_> = spend.signatures.iter().map(|it| signed(context, &secret, it)).collect();
    let finished = enforce::finish(&claims, &outputs, &[], &signatures)?;
    Ok(println!("{}", finished.tx.iter().map(|it| format!("{it:02x}")).collect::<String>()))
}
