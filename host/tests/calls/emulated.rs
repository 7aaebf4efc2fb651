//! For machines that are not x86-64, which cannot link the library: the entries, by a program that runs it under an emulator
//! (c/serve.c). POUCHMEADOW_SERVE is the command that starts it.

use std::cell::RefCell;
use std::io::{BufReader, BufWriter, Read, Write};
use std::mem::size_of;
use std::process::{Child, ChildStdin, ChildStdout, Command, Stdio};

struct Server {
    process: Child,
    to: BufWriter<ChildStdin>,
    from: BufReader<ChildStdout>,
}

impl Server {
    fn start() -> Server {
        let command =
            std::env::var("POUCHMEADOW_SERVE").expect("run by tests/host.sh, which says how to call the library");
        let mut process = Command::new("sh")
            .args(["-c", &format!("exec {command}")])
            .stdin(Stdio::piped())
            .stdout(Stdio::piped())
            .spawn()
            .expect("the program that calls the library");
        let to = BufWriter::new(process.stdin.take().unwrap());
        let from = BufReader::new(process.stdout.take().unwrap());
        Server { process, to, from }
    }
}

impl Drop for Server {
    fn drop(&mut self) {
        let _ = self.process.kill();
        let _ = self.process.wait();
    }
}

thread_local! {
    static SERVER: RefCell<Server> = RefCell::new(Server::start());
}

enum Part {
    Number(u64),
    Slice(*const u8, usize),
    Written(*mut u8, usize),
}

fn slice<T>(data: *const T, length: usize) -> Part {
    Part::Slice(data.cast(), length * size_of::<T>())
}

fn written<T>(data: *mut T, length: usize) -> Part {
    Part::Written(data.cast(), length * size_of::<T>())
}

unsafe fn call(entry: u64, told: *mut u64, parts: &[Part]) {
    SERVER.with_borrow_mut(|server| {
        let mut request = entry.to_le_bytes().to_vec();
        request.extend(std::slice::from_raw_parts(told.cast::<u8>(), 64));
        for part in parts {
            let (data, bytes) = match *part {
                Part::Number(number) => {
                    request.extend(number.to_le_bytes());
                    continue;
                }
                Part::Slice(data, bytes) => (data, bytes),
                Part::Written(data, bytes) => (data.cast_const(), bytes),
            };
            request.extend((bytes as u64).to_le_bytes());
            request.extend(std::slice::from_raw_parts(data, bytes));
        }
        server.to.write_all(&request).and_then(|()| server.to.flush()).expect("a request is taken");
        let answer = [written(told, 8)];
        for part in answer.iter().chain(parts) {
            if let Part::Written(data, bytes) = *part {
                server.from.read_exact(std::slice::from_raw_parts_mut(data, bytes)).expect("an answer is given");
            }
        }
    });
}

#[no_mangle]
unsafe extern "C" fn pouchmeadow_check_table(
    post: *const u16,
    post_length: usize,
    label: *const u16,
    label_length: usize,
    told: *mut u64,
) {
    call(0, told, &[slice(post, post_length), slice(label, label_length)]);
}

#[no_mangle]
unsafe extern "C" fn pouchmeadow_check_query(
    variables: usize,
    head: *const u8,
    head_length: usize,
    labels: *const u16,
    labels_length: usize,
    axes: *const u8,
    axes_length: usize,
    told: *mut u64,
) {
    let query = [
        Part::Number(variables as u64),
        slice(head, head_length),
        slice(labels, labels_length),
        slice(axes, axes_length),
    ];
    call(1, told, &query);
}

#[no_mangle]
unsafe extern "C" fn pouchmeadow_prune(
    post: *const u16,
    post_length: usize,
    label: *const u16,
    label_length: usize,
    variables: usize,
    head: *const u8,
    head_length: usize,
    labels: *const u16,
    labels_length: usize,
    axes: *const u8,
    axes_length: usize,
    sets: *mut u64,
    sets_length: usize,
    told: *mut u64,
) {
    let parts = [
        slice(post, post_length),
        slice(label, label_length),
        Part::Number(variables as u64),
        slice(head, head_length),
        slice(labels, labels_length),
        slice(axes, axes_length),
        written(sets, sets_length),
    ];
    call(2, told, &parts);
}

#[no_mangle]
unsafe extern "C" fn pouchmeadow_yes_or_no(
    post: *const u16,
    post_length: usize,
    label: *const u16,
    label_length: usize,
    variables: usize,
    head: *const u8,
    head_length: usize,
    labels: *const u16,
    labels_length: usize,
    axes: *const u8,
    axes_length: usize,
    sets: *mut u64,
    sets_length: usize,
    told: *mut u64,
) {
    let parts = [
        slice(post, post_length),
        slice(label, label_length),
        Part::Number(variables as u64),
        slice(head, head_length),
        slice(labels, labels_length),
        slice(axes, axes_length),
        written(sets, sets_length),
    ];
    call(3, told, &parts);
}

#[no_mangle]
unsafe extern "C" fn pouchmeadow_find_after(
    post: *const u16,
    post_length: usize,
    label: *const u16,
    label_length: usize,
    variables: usize,
    head: *const u8,
    head_length: usize,
    labels: *const u16,
    labels_length: usize,
    axes: *const u8,
    axes_length: usize,
    tuple: *const u16,
    tuple_length: usize,
    sets: *mut u64,
    sets_length: usize,
    found: *mut u16,
    found_length: usize,
    told: *mut u64,
) {
    let parts = [
        slice(post, post_length),
        slice(label, label_length),
        Part::Number(variables as u64),
        slice(head, head_length),
        slice(labels, labels_length),
        slice(axes, axes_length),
        slice(tuple, tuple_length),
        written(sets, sets_length),
        written(found, found_length),
    ];
    call(4, told, &parts);
}

#[no_mangle]
unsafe extern "C" fn pouchmeadow_list_answers(
    post: *const u16,
    post_length: usize,
    label: *const u16,
    label_length: usize,
    variables: usize,
    head: *const u8,
    head_length: usize,
    labels: *const u16,
    labels_length: usize,
    axes: *const u8,
    axes_length: usize,
    allowance: u64,
    sets: *mut u64,
    sets_length: usize,
    found: *mut u16,
    found_length: usize,
    told: *mut u64,
) {
    let parts = [
        slice(post, post_length),
        slice(label, label_length),
        Part::Number(variables as u64),
        slice(head, head_length),
        slice(labels, labels_length),
        slice(axes, axes_length),
        Part::Number(allowance),
        written(sets, sets_length),
        written(found, found_length),
    ];
    call(5, told, &parts);
}

#[no_mangle]
unsafe extern "C" fn pouchmeadow_read_query(
    text: *const u8,
    text_length: usize,
    names: *mut u8,
    names_length: usize,
    head: *mut u8,
    labels: *mut u16,
    axes: *mut u8,
    told: *mut u64,
) {
    let parts = [
        slice(text, text_length),
        written(names, names_length),
        written(head, 8),
        written(labels, 64),
        written(axes, 96),
    ];
    call(6, told, &parts);
}

#[no_mangle]
unsafe extern "C" fn pouchmeadow_read_sentence(
    text: *const u8,
    text_length: usize,
    names: *const u8,
    names_length: usize,
    post: *mut u16,
    post_length: usize,
    label: *mut u16,
    label_length: usize,
    told: *mut u64,
) {
    let parts = [
        slice(text, text_length),
        slice(names, names_length),
        written(post, post_length),
        written(label, label_length),
    ];
    call(7, told, &parts);
}
