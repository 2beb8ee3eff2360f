//! Makes the calls that standard input names, a line each, and prints what each answers, as `bindings/tests/answers.c` does.
use enforce::{ChannelType, Claim, Commitment, Direction, Error, Fact, Form, Found, FoundClaim, FundingKeys, Htlc, HtlcForm, Id, KeySource, Note, Output, Path, Signed, Slot, Stated, Whose};
use std::io::{self, BufRead};

fn hex(bytes: &[u8]) -> String {
    bytes.iter().map(|it| format!("{it:02x}")).collect()
}

fn bytes(text: &str) -> Vec<u8> {
    let text = if text == "-" { "" } else { text };
    (0..text.len() / 2).map(|at| u8::from_str_radix(&text[2 * at..2 * at + 2], 16).expect("hexadecimal digits")).collect()
}

fn array<const N: usize>(text: &str) -> [u8; N] {
    let mut whole = bytes(text);
    whole.resize(N, 0);
    whole.try_into().expect("the length is N")
}

fn key(source: &KeySource) -> String {
    match source {
        KeySource::Const(bytes) => hex(bytes),
        KeySource::Slot(slot) => format!("slot {slot}"),
    }
}

fn stated(it: &Stated) -> String {
    let holds = if it.holds { "yes" } else { "no" };
    match &it.fact {
        Fact::Hash(slot, hash) => format!("hash {slot} {} {holds}", hex(hash)),
        Fact::Size(slot, size) => format!("size {slot} {size} {holds}"),
        Fact::Truth(slot) => format!("truth {slot} {holds}"),
        Fact::Is(slot, bytes) if bytes.is_empty() => format!("is {slot} - {holds}"),
        Fact::Is(slot, bytes) => format!("is {slot} {} {holds}", hex(bytes)),
        Fact::Key(slot) => format!("key {slot}"),
        Fact::Form(slot) => format!("form {slot}"),
        Fact::Signed(slot, source) => format!("token {slot} {} {holds}", key(source)),
        Fact::Choice(slots, keys) => {
            let slots = slots.iter().map(usize::to_string).collect::<Vec<_>>().join(",");
            format!("assigned {slots} {} {holds}", keys.iter().map(key).collect::<Vec<_>>().join(","))
        }
        Fact::Lock(number) => format!("lock {number}"),
        Fact::Age(number) => format!("age {number}"),
    }
}

fn or_dash<T: ToString>(number: Option<T>) -> String {
    number.map_or("-".to_owned(), |it| it.to_string())
}

fn told(k: usize, path: &Path) -> String {
    let Path { arity, counted, height, .. } = path;
    let head = format!("path {k} arity {arity} counted {counted} height {height} lock {} age {}\n", or_dash(path.lock), or_dash(path.age));
    head + &path.facts.iter().map(|it| format!("  {}\n", stated(it))).collect::<String>()
}

fn form(words: &[&str]) -> Option<Form> {
    let (first, second, third) = (array(words[1]), array(words[2]), array(words[3]));
    let payment_hash = array(words[4]);
    let expiry_height = words[5].parse().expect("a height");
    let delay_blocks = words[6].parse().expect("a delay");
    let htlc = HtlcForm { revocation: first, remote_htlc: second, local_htlc: third, payment_hash };
    Some(match words[0] {
        "1" => Form::Funding { peers: second, own: third },
        "2" => Form::ToLocal { revocation: first, delay_blocks, delayed: third },
        "3" => Form::KeyHash { key: second },
        "4" => Form::Offered(htlc),
        "5" => Form::Received { form: htlc, expiry_height },
        "6" => Form::OfferedWithAnchors(htlc),
        "7" => Form::ReceivedWithAnchors { form: htlc, expiry_height },
        _ => return None,
    })
}

fn slot(text: &str) -> Slot {
    match text.split_at(2) {
        ("s=", key) => Slot::Signature(array(key)),
        ("p=", hash) => Slot::Preimage(array(hash)),
        (_, item) => Slot::Exact(bytes(item)),
    }
}

/// What a list has, each part read so.
fn each<T>(list: &str, separator: char, read: fn(&str) -> T) -> Vec<T> {
    if list == "-" { Vec::new() } else { list.split(separator).map(read).collect() }
}

fn claim(text: &str) -> Claim {
    let parts: Vec<&str> = text.split('/').collect();
    Claim {
        script: bytes(parts[0]),
        program: bytes(parts[1]),
        txid: array(parts[2]),
        index: parts[3].parse().expect("an index"),
        value: parts[4].parse().expect("a value"),
        path: parts[5].parse().expect("a path"),
        slots: each(parts[6], ',', slot),
    }
}

fn output(text: &str) -> Output {
    let (value, script) = text.split_once('/').expect("an output has two parts");
    Output { value: value.parse().expect("a value"), script: bytes(script) }
}

fn ids(id: &Id) -> String {
    format!("txid {} shown {}\n", hex(&id.txid), hex(&id.shown))
}

fn spend(claims: &str, outputs: &str, preimages: &str) -> Result<String, Error> {
    let found = enforce::unsigned_spend(&each(claims, ';', claim), &each(outputs, ';', output), &each(preimages, ',', array))?;
    let lines = found.signatures.iter().map(|it| format!("sign {} {} {} {}\n", it.input, it.item, hex(&it.key), hex(&it.digest)));
    Ok(format!("tx {}\nweight {} fee {}\n{}", hex(&found.tx), found.weight, found.fee_sat, ids(&found.id)) + &lines.collect::<String>())
}

fn signed(text: &str) -> Signed {
    let parts: Vec<&str> = text.split('/').collect();
    Signed { input: parts[0].parse().expect("an input"), item: parts[1].parse().expect("an item"), signature: bytes(parts[2]) }
}

fn finish(words: &[&str]) -> Result<String, Error> {
    let found = enforce::finish(&each(words[0], ';', claim), &each(words[1], ';', output), &each(words[2], ',', array), &each(words[3], ',', signed))?;
    Ok(format!("tx {}\n{}", hex(&found.tx), ids(&found.id)))
}

fn htlc(text: &str) -> Option<Htlc> {
    let parts: Vec<&str> = text.split('/').collect();
    let direction = match parts[0] {
        "1" => Direction::Offered,
        "2" => Direction::Received,
        _ => return None,
    };
    Some(Htlc { direction, expiry_height: parts[1].parse().expect("a height"), hash: array(parts[2]) })
}

/// The commitment that words name, and the index of the first HTLC whose direction no value of these types has: it and those after it are left out. The refusal of such a type of channel.
fn commitment(text: &str, htlcs: &str) -> Result<(Commitment, Option<usize>), String> {
    let parts: Vec<&str> = text.split('/').collect();
    let channel_type = match parts[0] {
        "1" => ChannelType::StaticRemoteKey,
        "2" => ChannelType::Anchors,
        _ => return Err("refused NoSuchChannelType\n".to_owned()),
    };
    let read = each(htlcs, ';', htlc);
    let unknown = read.iter().position(Option::is_none);
    let given = Commitment {
        channel_type,
        delay_blocks: parts[1].parse().expect("a delay"),
        revocation: array(parts[2]),
        delayed: array(parts[3]),
        local_htlc: array(parts[4]),
        remote_htlc: array(parts[5]),
        remote: array(parts[6]),
        htlcs: read.into_iter().map_while(|it| it).collect(),
        funding_keys: (parts[7] != "-").then(|| FundingKeys { own: array(parts[7]), peers: array(parts[8]) }),
    };
    Ok((given, unknown))
}

fn dash(bytes: &[u8]) -> String {
    if bytes.is_empty() { "-".to_owned() } else { hex(bytes) }
}

fn slots(given: &[Slot]) -> String {
    let words = given.iter().map(|slot| match slot {
        Slot::Signature(key) => format!("s={}", hex(key)),
        Slot::Preimage(hash) => format!("p={}", hex(hash)),
        Slot::Exact(item) => format!("e={}", dash(item)),
        Slot::Given { key, digest, tx } => format!("g={}:{}:{}", hex(key), hex(digest), hex(tx)),
    });
    words.collect::<Vec<_>>().join(",")
}

fn note(it: &Note) -> String {
    let (kind, at) = match *it {
        Note::Anyone(at) => (1, at),
        Note::Finder(at) => (2, at),
        Note::Nobody => (3, 0),
        Note::StricterKey(at) => (4, at),
        Note::StricterSignature(at) => (5, at),
        Note::StricterNumber(at) => (6, at),
        _ => (0, 0),
    };
    format!("note {kind} {at}\n")
}

fn path_slots(words: &[&str]) -> Result<String, Error> {
    let path = words[1].parse().expect("a path");
    let found = slots(&enforce::path_slots(&bytes(words[0]), path, &each(words[2], ',', array), &each(words[3], ',', array))?);
    Ok(if found.is_empty() { "-\n".to_owned() } else { found + "\n" })
}

fn found(it: &FoundClaim) -> String {
    let Claim { script, program, txid, index, value, path, .. } = &it.claim;
    let (kind, slots) = (it.kind as u32, slots(&it.claim.slots));
    let heights = format!("{} {}", it.from_height, or_dash(it.deadline_height));
    format!("found {kind} {heights} {}/{}/{}/{index}/{value}/{path}/{slots}\n", dash(script), dash(program), hex(txid))
}

/// What is found by a call, or the refusal of the HTLC that was left out, if no fault stands before it.
fn all_found(asked: Result<Found, Error>, unknown: Option<usize>) -> Result<String, Error> {
    if let Some(at) = unknown {
        return match asked {
            Err(refused) if ["NotACommitmentKey", "ExpiryTooLarge"].iter().any(|it| refused.to_string().starts_with(it)) => Err(refused),
            _ => Ok(format!("refused NoSuchDirection {at}\n")),
        };
    }
    let all = asked?;
    let others: String = all.others.iter().map(|it| format!(" {}:{}", it.index, it.kind as u32)).collect();
    Ok(all.claims.iter().map(found).collect::<String>() + &format!("others{others}\n"))
}

fn revoked(words: &[&str]) -> Result<String, Error> {
    match commitment(words[0], words[1]) {
        Ok((given, unknown)) => all_found(enforce::revoked(&given, &bytes(words[2]), words[3].parse().expect("a height")), unknown),
        Err(told) => Ok(told),
    }
}

fn close(words: &[&str]) -> Result<String, Error> {
    let whose = match words[0] {
        "1" => Whose::Own,
        "2" => Whose::Peers,
        _ => return Ok("refused NoSuchClose\n".to_owned()),
    };
    let (feerate, height) = (words[3].parse().expect("a feerate"), words[6].parse().expect("a height"));
    match commitment(words[1], words[2]) {
        Ok((given, unknown)) => all_found(enforce::close(whose, &given, feerate, &each(words[4], ',', array), &bytes(words[5]), height), unknown),
        Err(told) => Ok(told),
    }
}

fn answer(line: &str) -> Result<String, Error> {
    let words: Vec<&str> = line.split(' ').collect();
    match words[0] {
        "list" => {
            let paths = enforce::paths(&bytes(words[1]))?;
            Ok(format!("paths {}\n", paths.len()) + &paths.iter().enumerate().map(|(k, it)| told(k, it)).collect::<String>())
        }
        "text" => enforce::text(&bytes(words[1])),
        "program" => Ok(hex(&enforce::program(&bytes(words[1]))?) + "\n"),
        "claim" => claim(words[1]).accept().map(|due| format!("due {} {}\n", due.height, due.sequence)),
        "spend" => spend(words[1], words[2], words[3]),
        "finish" => finish(&words[1..]),
        "revoked" => revoked(&words[1..]),
        "slots" => path_slots(&words[1..]),
        "notes" => Ok("notes\n".to_owned() + &enforce::notes(&bytes(words[1]))?.iter().map(note).collect::<String>()),
        "close" => close(&words[1..]),
        _ => match form(&words[1..]) {
            Some(form) => Ok(hex(&form.script()?) + "\n"),
            // no value of `Form` has another kind
            None => Ok("refused NoSuchForm\n".to_owned()),
        },
    }
}

/// The word of a refusal, with its number and what it is about.
fn refusal(error: &Error) -> String {
    let told = error.refused().map_or_else(|| error.to_string(), ToString::to_string);
    let word = told.split(':').next().unwrap_or_default();
    match error {
        Error::Claim { claim, .. } => format!("{word} claim {claim}"),
        Error::Output { output, .. } => format!("{word} output {output}"),
        Error::Signature { input, item, .. } => format!("{word} {item} input {input}"),
        _ => word.to_owned(),
    }
}

fn main() {
    for line in io::stdin().lock().lines() {
        let line = line.expect("standard input can be read");
        print!("{}.\n", answer(&line).unwrap_or_else(|error| format!("refused {}\n", refusal(&error))));
    }
}
