//! Times `set` on a document: `time_set FILE PATH VALUE COUNT` writes the mean processor time of so many calls, in nanoseconds.
use toml_edit_proved::{set, Options};

unsafe extern "C" {
    // Of the C library: the processor time in microseconds.
    fn clock() -> std::ffi::c_long;
}

fn main() {
    let words: Vec<String> = std::env::args().skip(1).collect();
    let text = std::fs::read_to_string(&words[0]).expect("a file");
    let count: u32 = words[3].parse().expect("a count");
    let start = unsafe { clock() };
    for _ in 0..count {
        let made = set(&text, &words[1], &words[2], Options::default()).expect("a text");
        assert_ne!(made, text);
    }
    println!("{}", (unsafe { clock() } - start) as i128 * 1000 / i128::from(count));
}
