//! A chain as a JSON object; docs/SCRIPTING.md has its keys.

use super::told::{Amplified, Declared, How, Link, Told};
use crate::json::Object;
use crate::objects::{instruction, line};
use crate::source::Source;

pub fn object(told: &Told, source: &Source) -> Object {
    let object = Object::new()
        .text("location", &told.location)
        .number("after", told.after)
        .number("object", told.object as u64)
        .text("carries", &told.carries)
        .text("right", &told.right);
    let links = told.links.iter().map(|told| link(told, source));
    object.objects("chain", links)
}

fn link(link: &Link, source: &Source) -> Object {
    let object = Object::new().number("step", link.step);
    let at = &link.at;
    let object = instruction(object, at.procedure.as_deref(), at.instruction);
    let object = object.number("place", at.place as u64);
    let object = line(object, source, at).text("location", &link.location);
    match &link.how {
        How::Bound { from, through } => {
            let through = through
                .iter()
                .map(|Declared { is, role, .. }| Object::new().text("type", is).text("as", role));
            let object = object.text("how", "bound").text("from", from);
            object.objects("through", through)
        }
        How::Made => object.text("how", "made"),
        How::Amplified(Amplified {
            procedure,
            formal,
            module,
            inner,
            need,
            actual,
            ..
        }) => object
            .text("how", "amplified")
            .text("called", procedure)
            .text("formal", formal)
            .text("module", module)
            .text("inner", inner)
            .text("need", need)
            .text("actual", actual),
    }
}
