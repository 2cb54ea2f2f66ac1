//! The session's calls, over nine lent buffers.

use model::calls::Put;
use model::session::{Answer, Session};

pub use calls::{kept_class, open, pool, redo, retime, take, undo};
pub use exports::{Buffers as Lent, Owned};

mod calls {
    use model::fields::Class;
    use model::session::{Answer, Counts, Limits, Session};
    use model::shape::Shape;

    exports::laid_out! {
        Counts: 16 { scene: 4, m2: 8, m1: 12 },
        Session: 96 { side: 44, limits: 48, time: 68, past: 72, future: 76, kept: 80 },
        Answer: 100 { session: 4 }
    }
    exports::session_calls! { shape: Shape, limits: Limits, session: Session, answer: Answer, class: Class }
}

pub fn put(session: Session, put: Put, b: &mut Lent) -> Answer {
    calls::put(session, put.side, put.block, put.x, put.y, put.sad, put.luma, put.gesture, b)
}
