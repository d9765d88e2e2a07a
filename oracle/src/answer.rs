//! What the published Rust answers to an image, reading included.

use crate::contents::{Contents, Hop};
use crate::image::{read_image, read_routes, Refusal};
use crate::session::Session;

/// A graph, with the hops of the last addition.
#[derive(Debug, Clone, PartialEq, Eq)]
pub struct Answer {
    pub contents: Contents,
    pub hops: Vec<Hop>,
}

/// An answer or the refusal.
pub type Outcome = Result<Answer, Refusal>;

/// The program's answer: the build and, in modes 1 and 2, the addition.
pub fn whole(bytes: &[u8]) -> Outcome {
    let image = read_image(bytes)?;
    let mut session = Session::build(&image)?;
    let hops = if image.mode == 0 { Vec::new() } else { session.add(&image.routes)? };
    Ok(Answer { contents: session.contents(), hops })
}

/// The build alone.
pub fn build(bytes: &[u8]) -> Outcome {
    let (_, answer) = start(bytes)?;
    Ok(answer)
}

/// The build alone, and then an addition for each route image. A refused
/// addition changes nothing and the next goes on from there. After a refused
/// build there are no additions.
pub fn script(image: &[u8], additions: &[Vec<u8>]) -> Vec<Outcome> {
    let (mut session, answer) = match start(image) {
        Ok(started) => started,
        Err(refusal) => return vec![Err(refusal)],
    };
    let mut outcomes = vec![Ok(answer)];
    outcomes.extend(additions.iter().map(|bytes| add(&mut session, bytes)));
    outcomes
}

/// One addition of a route image.
pub fn add(session: &mut Session, bytes: &[u8]) -> Outcome {
    let hops = session.add(&read_routes(bytes)?)?;
    Ok(Answer { contents: session.contents(), hops })
}

fn start(bytes: &[u8]) -> Result<(Session, Answer), Refusal> {
    let session = Session::build(&read_image(bytes)?)?;
    let answer = Answer { contents: session.contents(), hops: Vec::new() };
    Ok((session, answer))
}
