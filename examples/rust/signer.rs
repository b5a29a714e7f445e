//! signer KIND TODAY CHUID BIOMETRIC CERTIFICATE: the certificate of who signed a biometric (kind 6, 7 or 12), from the files
//! of the CHUID and of the biometric of one card. It is written into the file CERTIFICATE, in DER as it stands on the card, and
//! what is printed says in which of the two. No signature is verified. tests/signers runs it.
//!
//! Values of a card are personal, also when they are in a file: this is an example for an engineer, and not the desk.
//!
//! Exit status: 0 if there is a certificate; 1 if it is refused, and then no file is written, and the number is printed, with
//! the place, the tag and the container where one breaks a rule; 2 for bad words, a file that cannot be read whole, or one
//! that cannot be written.
mod prosianek;
use prosianek::Which;
use std::io::{self, Write};
use std::process::exit;

fn stop(why: &str) -> ! {
    eprintln!("{why}");
    exit(2)
}

fn read(name: &str) -> Vec<u8> {
    std::fs::read(name).unwrap_or_else(|_| stop(&format!("the file '{name}' cannot be read")))
}

fn name_of(which: Which) -> &'static str {
    match which {
        Which::Chuid => "the CHUID",
        Which::Biometric => "the biometric",
    }
}

fn main() {
    let words: Vec<String> = std::env::args().collect();
    let numbers = match words.len() {
        6 => words[1].parse().ok().zip(words[2].parse().ok()),
        _ => None,
    };
    let (kind, today) =
        numbers.unwrap_or_else(|| stop("signer KIND TODAY CHUID BIOMETRIC CERTIFICATE"));
    let (chuid, biometric) = (read(&words[3]), read(&words[4]));

    let (text, status) = match prosianek::signer(kind, today, &chuid, &biometric) {
        Ok((which, range)) => {
            let certificate = match which {
                Which::Chuid => &chuid[range],
                Which::Biometric => &biometric[range],
            };
            if std::fs::write(&words[5], certificate).is_err() {
                stop(&format!("the file '{}' cannot be written", words[5]));
            }
            (format!("in {}", name_of(which)), 0)
        }
        // the check's verdict on that container; two hyphens stand for no tag, as in a report
        Err((Some(which), r)) => {
            let tag = r.tag.map_or("--".to_string(), |tag| format!("{tag:02X}"));
            let (number, place, name) = (r.number, r.place, name_of(which));
            let text = format!("refused {number}, place {place}, tag {tag}, of {name}");
            (text, 1)
        }
        Err((None, r)) => (format!("refused {}", r.number), 1),
    };
    if writeln!(io::stdout(), "{text}").is_err() {
        stop("not all could be written");
    }
    exit(status)
}
