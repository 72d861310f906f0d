//! Document 01, "The reference lister": what the program prints for its input.
use crate::asked::Stop;
use crate::body::{within, Body};

pub fn listed(input: &[u8]) -> String {
    let read = || {
        let (&item_type, body) = input.split_first().ok_or(Stop::Refused(6))?;
        within(body)?;
        Body::read(item_type, body)
    };
    match read() {
        Ok(body) => {
            let mut text = format!(
                "{} {} {} {}\n",
                body.start(),
                body.total,
                body.flags(),
                body.references.len()
            );
            for r in &body.references {
                text += &r.kind.to_string();
                for field in &r.fields {
                    text += &format!(" {field}");
                }
                if let Some(count) = r.count {
                    text += &format!(" {count}");
                }
                text += "\n";
            }
            text
        }
        Err(Stop::Refused(number)) => format!("refused {number}\n"),
        Err(_) => unreachable!("reading a body is never absent"),
    }
}
