//! Calls through the exported functions, every buffer between canaries, compared with the independent implementation: shared by
//! `door`, which generates them, and `fuzz`, which mutates stored ones.

pub mod canaries;
pub mod exports;
pub mod outcomes;
pub mod page;
pub mod requests;

use compare::calls::AnswerWords;

use exports::{Lent, Reply};
use requests::Request;

/// Makes the call and compares all that it answers and leaves: the reply, and the independent implementation's answer.
pub fn compare(request: &Request) -> Result<(Reply, AnswerWords), String> {
    let mut lent = Lent::new(request);
    let reply = exports::ask(request, &mut lent);
    if !lent.is_intact() {
        return Err(format!("a canary is lost\n{}", request.call));
    }
    let answer = request.call.expected();
    let expected = outcomes::expected(request, &answer);
    let found = outcomes::found(request, reply, &lent);
    if found != expected {
        let call = &request.call;
        return Err(format!(
            "{call}independent: {expected:?}\nexported:    {found:?}"
        ));
    }
    Ok((reply, answer))
}
