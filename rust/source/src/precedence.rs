//! That `or` binds tighter than `then`, as command.rs reads them, in the definition too.

/// Holds the declarations of Snowball.antt to it; the error is a message.
pub fn hold(commands: &str) -> Result<(), String> {
    match (binding(commands, "◌or◌"), binding(commands, "◌then◌")) {
        (Some(or), Some(then)) if or > then => Ok(()),
        _ => Err(
            "Snowball.antt does not have `or` bind tighter than `then`, both to the right".into(),
        ),
    }
}

// How tight an operator binds that is declared to bind to the right.
fn binding(commands: &str, operator: &str) -> Option<usize> {
    let mut lines = commands.lines();
    lines.find_map(|line| {
        let mut words = line.split_whitespace();
        let (kind, tight, name) = (words.next()?, words.next()?, words.next()?);
        match kind == "infixr" && name == operator {
            true => tight.parse().ok(),
            false => None,
        }
    })
}

#[cfg(test)]
mod tests {
    use super::hold;

    const RIGHT: &str = "infixr 35 ◌or◌\ninfixr 30 ◌then◌\n";

    #[test]
    fn as_in_snowball() {
        assert_eq!(hold(RIGHT), Ok(()));
    }

    #[test]
    fn anything_else_is_noticed() {
        for (old, new) in [
            ("35", "30"),
            ("35", "25"),
            ("infixr 35", "infixl 35"),
            ("◌then◌", "◌next◌"),
        ] {
            assert!(hold(&RIGHT.replacen(old, new, 1)).is_err(), "{old} {new}");
        }
    }
}
