//! The unproved twin of the program: the same design in plain Rust, with nothing but the standard library. It is for
//! measuring alone: `tools/measure.py` builds it with `rustc -O`, and runs it over the same scripts as the program, so
//! that one run shows what the proved program takes beyond it. Nothing of it is proved, and no file is to be kept with it.
//!
//! An image that it leaves is one of the program, and the other way round: nameless writes, tags and sequence numbers,
//! the virtual segment, the journal, deferred frees, cleaning with spare blocks and callbacks, wear, and an opening by a
//! scan and a walk are as docs/FORMATS.md and docs/INSIDE.md have them. Choices are the same too: the block that is taken
//! or cleaned, the node and the address that are given out, when a commit comes, and each call on the file.
//!
//! What it leaves out:
//! - Threads. The lines of all workers are done in the order in which they stand, and between two steps of a line the
//!   cleaner and the handler take one step each, where they have something to do.
//! - Failures. At the first call on the file that fails, and at a page that does not hold what is wanted, it ends with
//!   `medium fault` and status 5. Sequence numbers do not end, and nothing becomes read-only.
//! - The lock of the file, and the commands `report`, `check`, `map`, `get`, `put` and `soak`.
//!
//! Answers are gathered, and written at once behind the closing; the program writes 16 KiB of them at once.

mod blocks;
mod calls;
mod files;
mod files_segment;
mod free;
mod image;
mod meta;
mod names;
mod numbers;
mod opening;
mod scan;
mod script;
mod virtuals;
mod volume;

use image::{Image, Record};
use numbers::{put_super, Owner, Shape, Spare, DIR, FILE, NODES_AT};
use opening::{open, NotOpened};
use std::io::{Read, Write};
use std::process::exit;
use volume::Volume;

/// Ends the process: a call on the image file failed, or a page does not hold what is wanted.
pub fn fail() -> ! {
    println!("medium fault");
    exit(5)
}

/// Ends the process with a text.
fn end(text: &[u8], status: i32) -> ! {
    let printed = std::io::stdout().lock().write_all(text);
    exit(if printed.is_err() && status == 0 {
        4
    } else {
        status
    })
}

/// Makes a volume: the root's page of nodes, and the super page.
fn format(path: &str, shape: &Shape) {
    let mut image = Image::form(path, shape);
    let mut record = Record::new();
    record.main_mut()[0] = DIR;
    record.set_spare(&Spare {
        owner: Owner::Address(NODES_AT),
        stamp: 1,
        wear: 0,
    });
    image.program(0, &record);
    put_super(record.main_mut(), shape, 0);
    record.set_spare(&Spare {
        owner: Owner::Address(0),
        stamp: 2,
        wear: 0,
    });
    image.program(1, &record);
}

fn opened(path: &str) -> Volume {
    let Some((image, shape)) = Image::open(path) else {
        end(b"blank\n", 7)
    };
    match open(image, shape) {
        Ok(volume) => volume,
        Err(NotOpened::Blank) => end(b"blank\n", 7),
        Err(NotOpened::Damaged(place, what)) => {
            end(format!("damaged {place} {what}\n").as_bytes(), 7)
        }
    }
}

/// Runs the script on standard input. Its answers are printed once the volume is closed.
fn run(path: &str) -> Vec<u8> {
    let mut script = Vec::new();
    if std::io::stdin().lock().read_to_end(&mut script).is_err() {
        end(b"source fault\n", 3);
    }
    let lines = match script::lines(&script) {
        Ok(lines) => lines,
        Err(script::Refused(line, column, why)) => {
            end(format!("script {line} {column} {why}\n").as_bytes(), 2)
        }
    };
    let mut volume = opened(path);
    let mut text = format!("opened {}\n", volume.count).into_bytes();
    for line in &lines {
        volume.answer(line.number, &line.call, &mut text);
        volume.background();
    }
    volume.close();
    text
}

/// Every path, a directory before what is under it.
fn tree(path: &str) -> Vec<u8> {
    let volume = opened(path);
    let mut text = format!("opened {}\n", volume.count).into_bytes();
    let mut above = Vec::new();
    tree_under(&volume, 0, &mut above, &mut text);
    text
}

fn tree_under(volume: &Volume, ino: u32, path: &mut Vec<u8>, text: &mut Vec<u8>) {
    let node = volume.meta.node(ino);
    text.extend_from_slice(if node.kind() == FILE { b"f " } else { b"d " });
    text.extend_from_slice(if path.is_empty() { b"/" } else { path });
    let size = node.size();
    if node.kind() == FILE {
        text.extend_from_slice(format!(" {size} {}\n", volume.count_pages(ino)).as_bytes());
        return;
    }
    text.extend_from_slice(format!(" {size}\n").as_bytes());
    for entry in volume.sorted(ino) {
        let length = path.len();
        path.push(b'/');
        path.extend_from_slice(entry.name());
        tree_under(volume, entry.ino(), path, text);
        path.truncate(length);
    }
}

fn main() {
    let words: Vec<String> = std::env::args().skip(1).collect();
    let words: Vec<&str> = words.iter().map(String::as_str).collect();
    let number = |word: &str| {
        script::number(word.as_bytes())
            .ok()
            .and_then(|number| u32::try_from(number).ok())
    };
    match words[..] {
        [image, "format", blocks, pages] => {
            let numbers = number(blocks)
                .zip(number(pages))
                .and_then(|(blocks, pages)| Shape::of(blocks, pages));
            let Some(shape) = numbers else {
                end(b"words\n", 2)
            };
            format(image, &shape);
            let Shape {
                blocks,
                pages,
                nodes,
                meta,
                cap,
                ..
            } = shape;
            end(format!("formatted blocks {blocks} pages {pages} data {cap} nodes {nodes} meta {meta}\n").as_bytes(), 0)
        }
        [image, "run"] => end(&run(image), 0),
        [image, "tree"] => end(&tree(image), 0),
        _ => end(b"words\n", 2),
    }
}
