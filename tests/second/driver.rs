//! The pipe to the driver, which makes the library's calls in a process of its own (tests/driver.c).
//!
//! A request is a byte for the call, eight bytes for the vertex count, and for each buffer four bytes
//! for its length and then its numbers, all with the low byte first. A zero byte ends a batch. An
//! answer is three times four bytes for the number and the two counts, a byte that is 1 if nothing
//! outside the lent buffers was written, and the buffers.

use crate::calls::{returned, Answer, Call, Request};
use std::io::{self, BufReader, Read, Write};
use std::process::{Child, ChildStdin, ChildStdout, Command, Stdio};
use std::thread;

pub const END_OF_BATCH: u8 = 0;

pub struct Driver {
    process: Child,
    requests: ChildStdin,
    answers: BufReader<ChildStdout>,
}

/// An answer and whether the call kept to the lent buffers.
pub type Kept = (Answer, bool);

impl Driver {
    pub fn start(command: &[String]) -> io::Result<Driver> {
        let mut process = Command::new(&command[0])
            .args(&command[1..])
            .stdin(Stdio::piped())
            .stdout(Stdio::piped())
            .spawn()?;
        let requests = process.stdin.take().expect("the driver's input is piped");
        let answers = BufReader::with_capacity(
            1 << 20,
            process.stdout.take().expect("the driver's output is piped"),
        );
        Ok(Driver {
            process,
            requests,
            answers,
        })
    }

    /// Asks one batch. Fewer answers than requests come back if the driver ended on the way.
    pub fn ask(&mut self, batch: &[&Request]) -> Vec<Kept> {
        let bytes = batch_bytes(batch);
        let (requests, answers) = (&mut self.requests, &mut self.answers);
        thread::scope(|scope| {
            // written from a thread of its own: with both pipes full, one thread would wait for ever
            scope.spawn(move || {
                // a driver that ended shows in the answers that it does not give
                let _ = requests.write_all(&bytes).and_then(|()| requests.flush());
            });
            batch
                .iter()
                .map_while(|request| read_answer(answers, request).ok())
                .collect()
        })
    }

    pub fn stop(self) {
        let mut process = self.process;
        drop(self.requests);
        drop(self.answers);
        let _ = process.wait();
    }
}

fn batch_bytes(batch: &[&Request]) -> Vec<u8> {
    let mut bytes = Vec::new();
    for request in batch {
        bytes.push(request.call as u8 + 1);
        bytes.extend(request.vertices.to_le_bytes());
        for (buffer, width) in request.buffers.iter().zip(request.call.widths()) {
            bytes.extend((buffer.len() as u32).to_le_bytes());
            put_numbers(&mut bytes, buffer, width);
        }
    }
    bytes.push(END_OF_BATCH);
    bytes
}

fn put_numbers(bytes: &mut Vec<u8>, numbers: &[u16], width: usize) {
    for number in numbers {
        bytes.extend(&number.to_le_bytes()[..width]);
    }
}

fn take<const COUNT: usize>(input: &mut impl Read) -> io::Result<[u8; COUNT]> {
    let mut bytes = [0; COUNT];
    input.read_exact(&mut bytes)?;
    Ok(bytes)
}

fn take_numbers(input: &mut impl Read, count: usize, width: usize) -> io::Result<Vec<u16>> {
    let mut bytes = vec![0; count * width];
    input.read_exact(&mut bytes)?;
    Ok(bytes
        .chunks(width)
        .map(|number| {
            number
                .iter()
                .rev()
                .fold(0, |high, &low| high << 8 | u16::from(low))
        })
        .collect())
}

fn read_answer(input: &mut impl Read, request: &Request) -> io::Result<Kept> {
    let mut part = || take(&mut *input).map(u32::from_le_bytes);
    let (number, first, second) = (part()?, part()?, part()?);
    let [kept] = take(input)?;
    let mut buffers = Vec::new();
    for (buffer, width) in request.buffers.iter().zip(request.call.widths()) {
        buffers.push(take_numbers(input, buffer.len(), width)?);
    }
    let returned = returned(u64::from(number), first as usize, second as usize);
    Ok((Answer { returned, buffers }, kept == 1))
}

/// The other end of the pipe: an answer that kept to the lent buffers.
pub fn put_answer(bytes: &mut Vec<u8>, call: Call, answer: &Answer) {
    let value = answer.returned;
    for part in [value & 255, value >> 8 & 0xff_ffff, value >> 32] {
        bytes.extend((part as u32).to_le_bytes());
    }
    bytes.push(1);
    for (buffer, width) in answer.buffers.iter().zip(call.widths()) {
        put_numbers(bytes, buffer, width);
    }
}

/// The other end of the pipe: the next request, or nothing at the end of a batch.
pub fn read_request(input: &mut impl Read) -> io::Result<Option<Request>> {
    let [number] = take(input)?;
    if number == END_OF_BATCH {
        return Ok(None);
    }
    let call = Call::ALL[number as usize - 1];
    let vertices = u64::from_le_bytes(take(input)?);
    let mut buffers = Vec::new();
    for width in call.widths() {
        let length = u32::from_le_bytes(take(input)?) as usize;
        buffers.push(take_numbers(input, length, width)?);
    }
    Ok(Some(Request {
        call,
        vertices,
        buffers,
    }))
}
