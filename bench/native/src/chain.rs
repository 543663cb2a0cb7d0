//! The method that is measured: processes in a chain that pass a counter on for ever.

/// The code of a chain of 2 to 32 processes. The first sends the counter down the chain, the last adds 1 and sends it back.
pub fn chain(processes: usize) -> Vec<u8> {
    let mut text = String::from("plug 0, {} first, {} link1\n");
    // Process i has in slot 0 the channel to the one before; link i makes the channel to the one after, in slot 1.
    for i in 1..processes - 1 {
        text += &format!("link{i}: plug 1, {{0}} pass, {{}} next{i}\nnext{i}: run link{} 0 1\n", i + 1);
    }
    text += &format!("link{}: get 0\ncst 1\nadd\nput 0\nrun link{} 0 0\n", processes - 1, processes - 1);
    text += "first: cst 0\nput 0\nagain: get 0\nput 0\nrun again 0 0\n";
    text += "pass: get 0\nput 1\nget 1\nput 0\nrun pass 0 0 1";
    assembler::code(&text).expect("the words are the assembler's")
}
