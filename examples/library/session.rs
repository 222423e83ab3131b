//! Checks a policy, compiles it, and serves the request lines of standard input: `session POLICY`
//! `rustc session.rs -L /usr/local/lib -l static=ifsvm`
use std::io::{Read, Write, stdin, stdout};
use std::process::exit;
use std::{env, fs};

const CHECK: u32 = 0;
const COMPILE: u32 = 1;

const GOOD: u32 = 0;
const REFUSED: u32 = 1;
const SHORT: u32 = 3;

#[repr(C)]
struct Lengths {
    text: usize,
    file: usize,
}

unsafe extern "C" {
    fn ifs_page_answer(
        word: u32,
        input: *const u8,
        input_length: usize,
        definitions: *const u8,
        definitions_length: usize,
        text: *mut u8,
        text_size: usize,
        file: *mut u8,
        file_size: usize,
        lengths: *mut Lengths,
    ) -> u32;

    fn ifs_page_session(
        image: *const u8,
        image_length: usize,
        requests: *const u8,
        requests_length: usize,
        replies: *mut u8,
        replies_size: usize,
        length: *mut usize,
    ) -> u32;
}

/// The status of a word, what it prints of an input, and the image that it writes.
fn answer(word: u32, input: &[u8]) -> (u32, Vec<u8>, Vec<u8>) {
    let mut lengths = Lengths { text: 1 << 16, file: 1 << 16 };
    loop {
        let mut text = vec![0; lengths.text];
        let mut file = vec![0; lengths.file];
        let definitions: &[u8] = &[];
        // SAFETY: each pointer and length are those of one slice, and the buffers are apart.
        let status = unsafe {
            ifs_page_answer(
                word,
                input.as_ptr(),
                input.len(),
                definitions.as_ptr(),
                definitions.len(),
                text.as_mut_ptr(),
                text.len(),
                file.as_mut_ptr(),
                file.len(),
                &mut lengths,
            )
        };
        if status != SHORT {
            if status <= REFUSED {
                text.truncate(lengths.text);
                file.truncate(lengths.file);
            }
            return (status, text, file);
        }
    }
}

/// The status of a session on an image, and its replies to these request lines.
fn session(image: &[u8], requests: &[u8]) -> (u32, Vec<u8>) {
    let mut length = 1 << 16;
    loop {
        let mut replies = vec![0; length];
        // SAFETY: each pointer and length are those of one slice.
        let status = unsafe {
            ifs_page_session(
                image.as_ptr(),
                image.len(),
                requests.as_ptr(),
                requests.len(),
                replies.as_mut_ptr(),
                replies.len(),
                &mut length,
            )
        };
        if status != SHORT {
            if status == GOOD {
                replies.truncate(length);
            }
            return (status, replies);
        }
    }
}

/// Prints the answer of a word, and returns its image. The program ends if the input is refused.
fn answered(word: u32, input: &[u8]) -> Vec<u8> {
    let (status, text, image) = answer(word, input);
    if status > REFUSED {
        fail("no answer");
    }
    print(&text);
    if status == REFUSED {
        exit(1);
    }
    image
}

fn print(bytes: &[u8]) {
    if stdout().write_all(bytes).is_err() {
        fail("a write failed");
    }
}

fn fail(what: &str) -> ! {
    eprintln!("session: {what}");
    exit(3)
}

fn main() {
    let Some(Ok(policy)) = env::args().nth(1).map(fs::read) else {
        fail("usage: session POLICY < REQUESTS");
    };
    answered(CHECK, &policy);
    let image = answered(COMPILE, &policy);
    let mut requests = Vec::new();
    if stdin().read_to_end(&mut requests).is_err() {
        fail("a read failed");
    }
    let (status, replies) = session(&image, &requests);
    if status != GOOD {
        fail("no session");
    }
    print(&replies);
}
