//! The program: writes batches and pictures, answers batches, compares and counts answers.

use std::io::{Read, Write};
use std::process::ExitCode;

use second::batch::{answers, differences};
use second::explain::explain;
use second::explain_trial::explain_trial;
use second::generate::{generate, hand_written, pictures};
use second::judge::Judge;
use second::pairs::pairs;
use second::samples::{sample, SAMPLE_NAMES};
use second::stories::stories;
use second::story_answers::story_answers;
use second::story_cases::hand_written_stories;
use second::tally::tally;
use second::tree::tree;

const USAGE: &str = "usage:
  second generate SEED COUNT                 a random batch on standard output
  second batch                               the hand-written batch on standard output
  second answers                             answers to the batch on standard input
  second compare EXPECTED ACTUAL BATCH       first differences; status 1 if there are any
  second tally ANSWERS BATCH                 how often each number, end and set of decoders was given, and
                                             pictures by edition
  second picture SEED KIND                   a full sound picture of edition 1 on standard output; KIND is
                                             flat, nested, chain, high, low, rid or wide
  second pictures SEED COUNT FOLDER          random pictures, FOLDER/1.picture and so on
  second patches SEED COUNT FOLDER           random pictures with a patch each, FOLDER/1.picture, FOLDER/1.patch
                                             and so on
  second claims id|addr TARGET               what `fpb claims' prints of the picture on standard input;
                                             TARGET in hexadecimal
  second tree                                what `fpb tree' prints of it
  second explain                             what `fpb report --explain' prints of it
  second explain PATCH                       what `fpb trial --explain' prints of it and a file with a patch
  second trial PATCH                         what `fpb trial' prints of it and a file with a patch
  second stories SEED COUNT                  random stories of settings histories on standard output
  second story-cases                         the hand-written stories on standard output
  second story-answers                       answers to the stories on standard input";

/// How many differences are shown.
const DIFFERENCES_SHOWN: usize = 5;

fn main() -> ExitCode {
    let words: Vec<String> = std::env::args().skip(1).collect();
    let words: Vec<&str> = words.iter().map(String::as_str).collect();
    let done = match words.as_slice() {
        ["generate", seed, count] => generate_command(generate, seed, count),
        ["batch"] => print(&hand_written()),
        ["answers"] => answers_command(answers),
        ["compare", expected, actual, batch] => compare_command(expected, actual, batch),
        ["tally", answers, batch] => tally_command(answers, batch),
        ["picture", seed, kind] => picture_command(seed, kind),
        ["pictures", seed, count, folder] => pictures_command(seed, count, folder),
        ["patches", seed, count, folder] => patches_command(seed, count, folder),
        ["claims", "id", target] => claims_command(0, target),
        ["claims", "addr", target] => claims_command(1, target),
        ["tree"] => print_of_picture(tree),
        ["explain"] => print_of_picture(explain),
        ["explain", patch] => print_of_trial(patch, explain_trial),
        ["trial", patch] => print_of_trial(patch, trial),
        ["stories", seed, count] => generate_command(stories, seed, count),
        ["story-cases"] => print(&hand_written_stories()),
        ["story-answers"] => answers_command(story_answers),
        _ => Err(USAGE.to_string()),
    };
    done.unwrap_or_else(|message| {
        eprintln!("{message}");
        ExitCode::from(2)
    })
}

/// Writes bytes to standard output.
fn print(bytes: &[u8]) -> Result<ExitCode, String> {
    std::io::stdout().write_all(bytes).map_err(|error| error.to_string())?;
    Ok(ExitCode::SUCCESS)
}

/// Reads a file as text.
fn read_text(path: &str) -> Result<String, String> {
    std::fs::read_to_string(path).map_err(|error| format!("{path}: {error}"))
}

/// Reads a file as bytes.
fn read_bytes(path: &str) -> Result<Vec<u8>, String> {
    std::fs::read(path).map_err(|error| format!("{path}: {error}"))
}

/// All of standard input.
fn standard_input() -> Result<Vec<u8>, String> {
    let mut bytes = Vec::new();
    std::io::stdin().read_to_end(&mut bytes).map_err(|error| error.to_string())?;
    Ok(bytes)
}

/// A decimal number out of the command line.
fn number(word: &str) -> Result<u64, String> {
    word.parse().map_err(|_| format!("{word} is no number"))
}

/// A hexadecimal number out of the command line.
fn hexadecimal(word: &str) -> Result<u64, String> {
    let wrong = || format!("{word} is no hexadecimal number of 64 bits");
    match word.starts_with('+') {
        true => Err(wrong()),
        false => u64::from_str_radix(word, 16).map_err(|_| wrong()),
    }
}

/// `generate SEED COUNT` or `stories SEED COUNT`
fn generate_command(make: fn(u64, u64) -> Vec<u8>, seed: &str, count: &str) -> Result<ExitCode, String> {
    print(&make(number(seed)?, number(count)?))
}

/// `answers` or `story-answers`
fn answers_command(answers: fn(&[u8]) -> Result<Vec<String>, String>) -> Result<ExitCode, String> {
    let mut text = answers(&standard_input()?)?.join("\n");
    if !text.is_empty() {
        text.push('\n');
    }
    print(text.as_bytes())
}

/// `compare EXPECTED ACTUAL BATCH`
fn compare_command(expected: &str, actual: &str, batch: &str) -> Result<ExitCode, String> {
    let batch = read_bytes(batch)?;
    let found = differences(&batch, &read_text(expected)?, &read_text(actual)?, DIFFERENCES_SHOWN)?;
    for (index, difference) in found.iter().enumerate() {
        keep("picture", index, &difference.picture)?;
        if difference.call.is_of_trial() {
            keep("patch", index, &difference.patch)?;
        }
        println!("call     {}", difference.call);
        println!("expected {}", difference.expected);
        println!("actual   {}", difference.actual);
    }
    if found.is_empty() {
        println!("all answers agree");
        return Ok(ExitCode::SUCCESS);
    }
    Ok(ExitCode::from(1))
}

/// Writes what a difference is about to a file.
fn keep(what: &str, index: usize, bytes: &[u8]) -> Result<(), String> {
    let file = format!("difference-{}.{what}", index + 1);
    write_file(&file, bytes)?;
    println!("{what:8} {file} ({} bytes)", bytes.len());
    Ok(())
}

/// `tally ANSWERS BATCH`
fn tally_command(lines: &str, batch: &str) -> Result<ExitCode, String> {
    let counts = tally(&read_bytes(batch)?, &read_text(lines)?)?;
    for (what, count) in counts {
        println!("{count:8} {what}");
    }
    Ok(ExitCode::SUCCESS)
}

/// `picture SEED KIND`
fn picture_command(seed: &str, kind: &str) -> Result<ExitCode, String> {
    match sample(kind, number(seed)?) {
        Some(draft) => print(&draft.bytes()),
        None => Err(format!("the kinds are {}", SAMPLE_NAMES.join(", "))),
    }
}

/// `pictures SEED COUNT FOLDER`
fn pictures_command(seed: &str, count: &str, folder: &str) -> Result<ExitCode, String> {
    make_folder(folder)?;
    for (index, picture) in pictures(number(seed)?, number(count)?).enumerate() {
        write_file(&format!("{folder}/{}.picture", index + 1), &picture)?;
    }
    Ok(ExitCode::SUCCESS)
}

/// `patches SEED COUNT FOLDER`
fn patches_command(seed: &str, count: &str, folder: &str) -> Result<ExitCode, String> {
    make_folder(folder)?;
    for (index, pair) in pairs(number(seed)?, number(count)?).enumerate() {
        write_file(&format!("{folder}/{}.picture", index + 1), &pair.picture)?;
        write_file(&format!("{folder}/{}.patch", index + 1), &pair.patch)?;
    }
    Ok(ExitCode::SUCCESS)
}

/// Makes a folder, unless it is there.
fn make_folder(folder: &str) -> Result<(), String> {
    std::fs::create_dir_all(folder).map_err(|error| format!("{folder}: {error}"))
}

/// Writes a file.
fn write_file(file: &str, bytes: &[u8]) -> Result<(), String> {
    std::fs::write(file, bytes).map_err(|error| format!("{file}: {error}"))
}

/// `claims id TARGET` or `claims addr TARGET`
fn claims_command(target_kind: u32, target: &str) -> Result<ExitCode, String> {
    let target = hexadecimal(target)?;
    print(Judge::new(&standard_input()?).claims(target_kind, target).as_bytes())
}

/// `tree`, or `explain` without a patch
fn print_of_picture(text: fn(&[u8]) -> String) -> Result<ExitCode, String> {
    print(text(&standard_input()?).as_bytes())
}

/// What `fpb trial` prints.
fn trial(picture: &[u8], patch: &[u8]) -> String {
    Judge::of_trial(picture, patch).report()
}

/// `trial PATCH` or `explain PATCH`
fn print_of_trial(patch: &str, text: fn(&[u8], &[u8]) -> String) -> Result<ExitCode, String> {
    let patch = read_bytes(patch)?;
    print(text(&standard_input()?, &patch).as_bytes())
}
