//! A tower: from a transaction and what is known of a revoked commitment to the penalty that nobody has signed yet. Reads words from standard input, which c/tower.c names.
use enforce::{ChannelType, Claim, Commitment, Direction, Htlc, Output};
use std::{io, process, str::SplitWhitespace};

fn hex(bytes: &[u8]) -> String {
    bytes.iter().map(|it| format!("{it:02x}")).collect()
}

fn bytes(words: &mut SplitWhitespace) -> Vec<u8> {
    let word = words.next().expect("a word");
    (0..word.len() / 2).map(|at| u8::from_str_radix(&word[2 * at..2 * at + 2], 16).expect("hexadecimal digits")).collect()
}

fn array<const N: usize>(words: &mut SplitWhitespace) -> [u8; N] {
    bytes(words).try_into().expect("a word of this length")
}

fn number(words: &mut SplitWhitespace) -> u64 {
    words.next().expect("a word").parse().expect("a number")
}

fn main() {
    let text = io::read_to_string(io::stdin()).expect("standard input can be read");
    let w = &mut text.split_whitespace();
    let tx = bytes(w);
    let channel_type = if number(w) == 1 { ChannelType::StaticRemoteKey } else { ChannelType::Anchors };
    let delay_blocks = number(w) as u16;
    let (revocation, delayed, local_htlc, remote_htlc, remote) = (array(w), array(w), array(w), array(w), array(w));
    let (height, script, fee) = (number(w) as u32, bytes(w), number(w));
    let mut htlcs = Vec::new();
    while let Some(word) = w.next() {
        let direction = if word == "1" { Direction::Offered } else { Direction::Received };
        htlcs.push(Htlc { direction, expiry_height: number(w) as u32, hash: array(w) });
    }
    let commitment = Commitment { channel_type, delay_blocks, revocation, delayed, local_htlc, remote_htlc, remote, htlcs, funding_keys: None };
    let found = enforce::revoked(&commitment, &tx, height).unwrap_or_else(|refused| {
        println!("refused {refused}");
        process::exit(1)
    });
    for it in &found.claims {
        println!("claim {} kind {} until {}", it.claim.index, it.kind as u32, it.deadline_height.unwrap_or(0));
    }
    found.others.iter().for_each(|it| println!("other {}", it.index));
    let claims: Vec<Claim> = found.claims.into_iter().map(|it| it.claim).collect();
    let value = claims.iter().map(|it| it.value).sum::<u64>().saturating_sub(fee);
    let spend = enforce::unsigned_spend(&claims, &[Output { value, script }], &[]).unwrap_or_else(|refused| {
        println!("refused {refused}");
        process::exit(1)
    });
    println!("tx {}", hex(&spend.tx));
    for it in &spend.signatures {
        println!("sign {} {} {} {}", it.input, it.item, hex(&it.key), hex(&it.digest));
    }
}
