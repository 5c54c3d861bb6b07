//! `locks`, written a second time.

fn main() {
    reference::program::serve::<reference::locks::Locks>();
}
