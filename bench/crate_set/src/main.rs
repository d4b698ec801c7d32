//! Times `set` on a document by the crate `toml_edit`: `set_with_crate FILE PATH VALUE COUNT` writes the mean processor time of so
//! many, in nanoseconds. PATH has bare keys and numbers with dots between them.
use toml_edit::{DocumentMut, Item, Value};

unsafe extern "C" {
    // Of the C library: the processor time in microseconds.
    fn clock() -> std::ffi::c_long;
}

fn main() {
    let words: Vec<String> = std::env::args().skip(1).collect();
    let text = std::fs::read_to_string(&words[0]).unwrap();
    let count: u32 = words[3].parse().unwrap();
    let start = unsafe { clock() };
    for _ in 0..count {
        let mut document: DocumentMut = text.parse().unwrap();
        let mut item: &mut Item = document.as_item_mut();
        for key in words[1].split('.') {
            item = match key.parse::<usize>() {
                Ok(at) => &mut item[at],
                Err(_) => &mut item[key],
            };
        }
        let value: Value = words[2].parse().unwrap();
        let decor = item.as_value().unwrap().decor().clone();
        *item = Item::Value(value);
        *item.as_value_mut().unwrap().decor_mut() = decor;
        let made = document.to_string();
        assert_ne!(made, text);
    }
    println!(
        "{}",
        (unsafe { clock() } - start) as i128 * 1000 / i128::from(count)
    );
}
