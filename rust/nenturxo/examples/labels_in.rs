//! Shows the record of the label list given as arguments, or of the sheet's
//! worked plan 4 1 3 5 2 where none is given.

use nenturxo::{labels_in, RECORD_CAPACITY};

fn main() {
    let given: Vec<String> = std::env::args().skip(1).collect();
    let words: Vec<&str> = if given.is_empty() {
        vec!["4", "1", "3", "5", "2"]
    } else {
        given.iter().map(String::as_str).collect()
    };
    let labels: Result<Vec<u8>, _> = words.iter().map(|word| word.parse::<u8>()).collect();
    let Ok(labels) = labels else {
        eprintln!("a label is a number from 0 to 255");
        return;
    };
    let mut record = [0; RECORD_CAPACITY];
    println!("labels {}", words.join(" "));
    match labels_in(&labels, &mut record) {
        Ok(length) => {
            let bytes: Vec<String> = record[..length]
                .iter()
                .map(|byte| format!("{byte:02X}"))
                .collect();
            println!("record {}", bytes.join(" "));
        }
        Err(refusal) => println!("{refusal}"),
    }
}
