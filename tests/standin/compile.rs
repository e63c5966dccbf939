//! A stand-in for the program `compile`, on which the program's tests are tried.

#[path = "../../bench/src/plain.rs"]
mod plain;

use std::io::Read;

fn words(text: &str) -> Option<Vec<u32>> {
    let items = text.split([' ', '\n']).filter(|item| !item.is_empty());
    let digits = |item: &&str| item.bytes().all(|byte| byte.is_ascii_digit());
    items.map(|item| Some(item).filter(digits).and_then(|item| item.parse().ok())).collect()
}

fn main() {
    let mut text = Vec::new();
    std::io::stdin().take(16_385).read_to_end(&mut text).expect("standard input");
    let list = String::from_utf8(text).ok().filter(|text| text.len() < 16_385);
    let Some(list) = list.and_then(|text| words(&text)) else {
        return println!("refused 14 0");
    };
    let mut table = vec![0; 16 * plain::RECORD];
    let mut scratch = vec![0; 16 * plain::SLOT];
    let built = plain::build::<plain::AsSlices>(&list, &mut table, &mut scratch);
    if built.refusal != 0 {
        return println!("refused {} {}", built.refusal, built.number);
    }
    println!("states {}", built.number);
    for (n, record) in table.chunks(plain::RECORD).take(built.number as usize).enumerate() {
        let words: Vec<String> = record.iter().map(u32::to_string).collect();
        println!("{n} {}", words.join(" "));
    }
}
