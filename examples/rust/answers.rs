//! Asks the library a question of each kind. Its one word is the folder `crates/wac_wit_tool/data`.

mod wac;

use std::fs::read_to_string;
use std::path::Path;

const TYPES: &str = "\
coll 1
def list u8
def list s8
";

fn main() {
    let data = std::env::args().nth(1).expect("usage: answers DATA");
    let text = |name: &str| read_to_string(Path::new(&data).join(name)).expect("a file of DATA");
    let (old, new) = (text("changes/old.wit"), text("changes/field-changed.wit"));
    let composition = text("composition.wit");
    println!("version {}", wac::version());
    let question = "subtype 1 V:d0 1 V:d1 co\n";
    print!("{}", wac::answer_script(&format!("{TYPES}{question}")).expect("memory"));
    // the same with a session, which keeps the types for more questions
    let mut session = wac::Session::new().expect("memory");
    session.ask(TYPES).expect("memory");
    print!("{}", session.ask(question).expect("memory"));
    print!("{}", session.ask("subtype 1 V:d1 1 V:d1 co\n").expect("memory"));
    print!("{}", wac::compat(&old, &new).expect("memory"));
    print!("{}", wac::targets(("lamp", &old), ("lamp", &new)).expect("memory"));
    print!("{}", wac::merge(&["middleware", "handler", "client"], &composition).expect("memory"));
}
