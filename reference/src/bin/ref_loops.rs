//! `loops`, written a second time.

fn main() {
    reference::program::serve::<reference::loops::Loops>();
}
