//! The listing program, run as a process.

use std::env;
use std::fs::{self, File};
use std::io::{self, Read, Seek, SeekFrom, Write};
use std::os::unix::process::CommandExt;
use std::path::{self, Path, PathBuf};
use std::process::{self, Child, Command, ExitStatus, Stdio};
use std::sync::mpsc;
use std::thread;
use std::time::{Duration, Instant};

use crate::random::{draw, Random};
use crate::reference::{items, Content, FssUtf};
use crate::report::{hex, Group};

/// The program reads no more bytes than this.
const READ_AT_MOST: usize = 4_096;

/// A run that takes longer hangs.
const PATIENCE: Duration = Duration::from_secs(10);

/// Document 01's example.
const EXAMPLE: [u8; 7] = [0x41, 0xC2, 0xA9, 0x80, 0xE2, 0x89, 0x0A];
const EXAMPLE_LISTING: &str = "\
START LENGTH READ
0 1 U+00000041
1 2 U+000000A9
3 1 fault 3
4 2 fault 2
6 1 U+0000000A
items 5 faults 2
";

/// Request 110 leaves the listing as it was.
const STILL_LISTED: [u8; 7] = [0x41, 0xEF, 0xBF, 0xBE, 0xEF, 0xBF, 0xBF];
const STILL_LISTED_LISTING: &str = "\
START LENGTH READ
0 1 U+00000041
1 3 U+0000FFFE
4 3 U+0000FFFF
items 3 faults 0
";

pub fn check(group: &mut Group, program: &Path) {
    // A bare name is a file here, not one on the search path.
    let program = path::absolute(program).unwrap_or_else(|_| program.to_path_buf());
    let first = run(&program, Feed::Whole(&EXAMPLE));
    let can_be_run = first.is_ok();
    compare(
        group,
        "document 01's example",
        &EXAMPLE,
        EXAMPLE_LISTING,
        first,
    );
    if !can_be_run {
        return;
    }
    let own = render(&EXAMPLE);
    group.check(own == EXAMPLE_LISTING, || {
        format!("the reference lists document 01's example as {own}")
    });

    compare(
        group,
        "FFFE and FFFF",
        &STILL_LISTED,
        STILL_LISTED_LISTING,
        run(&program, Feed::Whole(&STILL_LISTED)),
    );

    for (source, text) in texts() {
        compare(
            group,
            source,
            &text,
            &render(&text),
            run(&program, Feed::Whole(&text)),
        );
    }

    let pieces = texts_in_pieces();
    for (text, size) in &pieces {
        let came = run(&program, Feed::Pieces(text, *size));
        compare(group, "input in pieces", text, &render(text), came);
    }

    // Once 4,096 bytes are read, no end of the input is waited for.
    let text = vec![b'A'; READ_AT_MOST];
    let came = run(&program, Feed::LeftOpen(&text));
    compare(
        group,
        "4,096 bytes and the input left open",
        &text,
        &render(&text),
        came,
    );

    further_bytes_are_not_read(group, &program);
    output_closed_early(group, &program);
}

/// The reference's own listing.
fn render(input: &[u8]) -> String {
    let items = items::<FssUtf>(&input[..input.len().min(READ_AT_MOST)]);
    let mut listing = String::from("START LENGTH READ\n");
    let mut faults = 0;
    for item in &items {
        let read = match item.content {
            Content::Character(value) => format!("U+{value:08X}"),
            Content::Mark(fault) => {
                faults += 1;
                format!("fault {fault}")
            }
        };
        listing += &format!("{} {} {read}\n", item.start, item.length);
    }
    listing += &format!("items {} faults {faults}\n", items.len());
    listing
}

fn texts() -> Vec<(&'static str, Vec<u8>)> {
    let mut random = Random::new(8);
    let mut texts = vec![
        ("empty input", vec![]),
        ("one byte", vec![0x00]),
        ("input that ends inside a sequence", vec![0x41, 0xE2, 0x89]),
        ("input that ends with a lead", vec![0x41, 0xFC]),
        ("highest value", vec![0xFD, 0xBF, 0xBF, 0xBF, 0xBF, 0xBF]),
        (
            "overlong",
            vec![0xC0, 0x80, 0xFC, 0x83, 0xBF, 0xBF, 0xBF, 0xBF],
        ),
        ("unused bytes", vec![0xFE, 0xFF, 0x80]),
        ("every byte", (0..=0xFF).collect()),
        ("4,095 bytes", vec![b'A'; READ_AT_MOST - 1]),
        ("4,096 bytes", vec![b'A'; READ_AT_MOST]),
        ("4,096 marks", vec![0xBF; READ_AT_MOST]),
        ("4,097 bytes", vec![b'A'; READ_AT_MOST + 1]),
        ("5,000 bytes", vec![b'A'; 5_000]),
    ];
    // A sequence that the 4,096th byte cuts short at each of its places.
    for before in READ_AT_MOST - 6..=READ_AT_MOST {
        let mut text = vec![b'A'; before];
        text.extend([0xFD, 0xBF, 0xBF, 0xBF, 0xBF, 0xBF]);
        text.resize(5_000, b'B');
        texts.push(("a sequence across the 4,096th byte", text));
    }
    for number in 0..200 {
        let longest = if number % 20 == 0 { 5_000 } else { 300 };
        let mut text = Vec::new();
        draw::<FssUtf>(&mut text, longest, &mut random);
        texts.push(("random text", text));
    }
    texts
}

/// Texts with the size of the pieces that they come in.
fn texts_in_pieces() -> Vec<(Vec<u8>, usize)> {
    let mut random = Random::new(9);
    let mut texts = vec![(EXAMPLE.to_vec(), 1), (EXAMPLE.to_vec(), 2)];
    for size in [1, 3, 7] {
        let mut text = Vec::new();
        draw::<FssUtf>(&mut text, 60, &mut random);
        texts.push((text, size));
    }
    // A short read in the middle is not the input's end.
    texts.push(([&[0xE2; 3_000][..], &[0x89; 2_000]].concat(), 1_000));
    texts
}

/// How the input is fed to the program.
enum Feed<'a> {
    Whole(&'a [u8]),
    Pieces(&'a [u8], usize),
    /// Written, and the pipe held open until the program has ended.
    LeftOpen(&'a [u8]),
}

impl Feed<'_> {
    fn pieces(&self) -> Vec<Vec<u8>> {
        match *self {
            Feed::Whole(text) | Feed::LeftOpen(text) => vec![text.to_vec()],
            Feed::Pieces(text, size) => text.chunks(size).map(<[u8]>::to_vec).collect(),
        }
    }
}

/// What a run gave: its output and how it ended.
struct Ran {
    output: Vec<u8>,
    status: ExitStatus,
}

/// Runs the program on an input. An error tells why it has no result.
fn run(program: &Path, feed: Feed) -> Result<Ran, String> {
    let mut child = start(program, Stdio::piped(), Stdio::piped())?;
    let mut input = child.stdin.take().expect("standard input is a pipe");
    let mut output = child.stdout.take().expect("standard output is a pipe");

    let (done, held_open) = mpsc::channel::<()>();
    let pieces = feed.pieces();
    let left_open = matches!(feed, Feed::LeftOpen(_));
    let writer = thread::spawn(move || {
        for (number, piece) in pieces.iter().enumerate() {
            if number > 0 {
                thread::sleep(Duration::from_millis(2));
            }
            // The program may have read all it wants and be gone.
            if input.write_all(piece).is_err() {
                return;
            }
        }
        if left_open {
            // Ends when the other end is dropped.
            let _ = held_open.recv();
        }
    });
    let (sender, received) = mpsc::channel();
    thread::spawn(move || {
        let mut bytes = Vec::new();
        let read = output.read_to_end(&mut bytes).map(|_| bytes);
        // Nobody listens any more where the program hung.
        let _ = sender.send(read);
    });

    let status = wait(&mut child);
    drop(done);
    let status = status?;
    let output = received
        .recv_timeout(PATIENCE)
        .map_err(|_| "its standard output stays open".to_string())?
        .map_err(|error| format!("its standard output cannot be read: {error}"))?;
    writer.join().expect("the writer does not panic");
    Ok(Ran { output, status })
}

fn start(program: &Path, input: Stdio, output: Stdio) -> Result<Child, String> {
    Command::new(program)
        .stdin(input)
        .stdout(output)
        .stderr(Stdio::null())
        // A wrapper and what it starts are stopped together.
        .process_group(0)
        .spawn()
        .map_err(|error| format!("{} cannot be run: {error}", program.display()))
}

/// Waits for the end, but not for ever.
fn wait(child: &mut Child) -> Result<ExitStatus, String> {
    let begun = Instant::now();
    loop {
        match child.try_wait() {
            Ok(Some(status)) => return Ok(status),
            Ok(None) if begun.elapsed() < PATIENCE => thread::sleep(Duration::from_micros(300)),
            Ok(None) => {
                stop(child);
                return Err(format!(
                    "it hangs: stopped after {} seconds",
                    PATIENCE.as_secs()
                ));
            }
            Err(error) => return Err(format!("it cannot be waited for: {error}")),
        }
    }
}

/// Stops the child and whatever it started.
fn stop(child: &mut Child) {
    extern "C" {
        fn kill(process: i32, signal: i32) -> i32;
    }
    const SIGKILL: i32 = 9;
    // SAFETY: the call has no memory to break; a child that is not yet waited
    // for keeps its number, and its group has the same one.
    unsafe { kill(-(child.id() as i32), SIGKILL) };
    let _ = child.wait();
}

fn compare(
    group: &mut Group,
    source: &str,
    input: &[u8],
    expected: &str,
    came: Result<Ran, String>,
) {
    let ran = match came {
        Ok(ran) => ran,
        Err(why) => {
            group.check(false, || {
                format!("{source}: [{}]: {why}", hex::<FssUtf>(input))
            });
            return;
        }
    };
    group.check(ran.output == expected.as_bytes(), || {
        let printed = String::from_utf8_lossy(&ran.output);
        let same = printed
            .lines()
            .zip(expected.lines())
            .take_while(|(a, b)| a == b)
            .count();
        format!(
            "{source}: [{}]: line {}: expected {:?}, came {:?}; {} bytes expected, {} came",
            hex::<FssUtf>(input),
            same + 1,
            expected.lines().nth(same),
            printed.lines().nth(same),
            expected.len(),
            ran.output.len(),
        )
    });
    group.check(ran.status.success(), || {
        format!(
            "{source}: [{}]: it ended with {}",
            hex::<FssUtf>(input),
            ran.status
        )
    });
}

/// A file as standard input shows how far it was read: the place is shared.
fn further_bytes_are_not_read(group: &mut Group, program: &Path) {
    for length in [0, 10, READ_AT_MOST, 5_000, 20_000] {
        let text = vec![b'A'; length];
        let came = read_from_file(program, &text);
        let expected = length.min(READ_AT_MOST) as u64;
        group.check(came == Ok(expected), || {
            format!(
                "a file of {length} bytes: expected {expected} of them to be read, came {came:?}"
            )
        });
    }
}

fn read_from_file(program: &Path, text: &[u8]) -> Result<u64, String> {
    let path = scratch_file();
    let result = (|| -> io::Result<(File, File)> {
        let mut file = File::options()
            .read(true)
            .write(true)
            .create_new(true)
            .open(&path)?;
        file.write_all(text)?;
        file.seek(SeekFrom::Start(0))?;
        let lent = file.try_clone()?;
        Ok((file, lent))
    })();
    // The open file outlives its name.
    let _ = fs::remove_file(&path);
    let (mut file, lent) = result.map_err(|error| format!("no scratch file: {error}"))?;
    let mut child = start(program, Stdio::from(lent), Stdio::null())?;
    wait(&mut child)?;
    file.stream_position().map_err(|error| error.to_string())
}

fn scratch_file() -> PathBuf {
    env::temp_dir().join(format!("second-listing-{}", process::id()))
}

/// With nobody to read its output the program still ends.
fn output_closed_early(group: &mut Group, program: &Path) {
    for length in [7, READ_AT_MOST] {
        let ended = (|| {
            let mut child = start(program, Stdio::piped(), Stdio::piped())?;
            drop(child.stdout.take());
            let mut input = child.stdin.take().expect("standard input is a pipe");
            // Short enough for the pipe to take it whole; the program may be
            // gone already.
            let _ = input.write_all(&vec![b'A'; length]);
            drop(input);
            wait(&mut child)
        })();
        group.check(ended.is_ok(), || {
            format!("output closed early, {length} bytes: {ended:?}")
        });
    }
}
