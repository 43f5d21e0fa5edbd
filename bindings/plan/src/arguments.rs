//! What the arguments ask for.

#[derive(Debug, PartialEq)]
pub enum Wish {
    Help,
    Plan {
        file: String,
        svg: bool,
    },
    Diff {
        before: String,
        after: String,
        svg: bool,
        colour: Colour,
    },
    Make {
        drawing: String,
        size: Option<f64>,
        radius: Option<f64>,
        to: Option<String>,
    },
}

#[derive(Clone, Copy, Debug, PartialEq)]
pub enum Colour {
    Always,
    Never,
    Auto,
}

/// All options as they were given, before it is judged which of them go together.
#[derive(Default)]
struct Given {
    svg: bool,
    diff: bool,
    make: bool,
    colour: Option<Colour>,
    size: Option<f64>,
    radius: Option<f64>,
    to: Option<String>,
    files: Vec<String>,
}

/// Of wrong use, what is wrong.
pub fn read(arguments: &[String]) -> Result<Wish, String> {
    if arguments.iter().any(|one| one == "-h" || one == "--help") {
        return Ok(Wish::Help);
    }
    let mut given = Given::default();
    let mut rest = arguments.iter();
    if arguments.first().is_some_and(|one| one == "make") {
        given.make = true;
        rest.next();
    }
    while let Some(argument) = rest.next() {
        given.take(argument, &mut rest)?;
    }
    given.wish()
}

impl Given {
    fn take<'a>(
        &mut self,
        argument: &str,
        rest: &mut impl Iterator<Item = &'a String>,
    ) -> Result<(), String> {
        let mut value = || rest.next().ok_or(format!("{argument} needs a value"));
        match argument {
            "--svg" => self.svg = true,
            "--diff" => self.diff = true,
            "--colour" | "--color" => self.colour = Some(colour(value()?)?),
            "--size" => self.size = Some(number(argument, value()?)?),
            "--radius" => self.radius = Some(number(argument, value()?)?),
            "-o" => self.to = Some(value()?.clone()),
            option if option.starts_with('-') && option != "-" => {
                return Err(format!("there is no option {option}"));
            }
            file => self.files.push(file.to_string()),
        }
        Ok(())
    }

    fn wish(self) -> Result<Wish, String> {
        self.judge()?;
        let [first, second] = {
            let mut files = self.files.into_iter();
            [files.next(), files.next()].map(Option::unwrap_or_default)
        };
        Ok(if self.make {
            Wish::Make {
                drawing: first,
                size: self.size,
                radius: self.radius,
                to: self.to,
            }
        } else if self.diff {
            Wish::Diff {
                before: first,
                after: second,
                svg: self.svg,
                colour: self.colour.unwrap_or(Colour::Auto),
            }
        } else {
            Wish::Plan {
                file: first,
                svg: self.svg,
            }
        })
    }

    /// Which options go together, and with how many files.
    fn judge(&self) -> Result<(), String> {
        let of_make = self.size.is_some() || self.radius.is_some() || self.to.is_some();
        if of_make && !self.make {
            return Err("--size, --radius and -o are for 'plan make'".into());
        }
        if self.make && (self.svg || self.diff) {
            return Err("--svg and --diff do not go with 'plan make'".into());
        }
        if self.colour.is_some() && (!self.diff || self.svg) {
            return Err("--colour is for 'plan --diff A B'".into());
        }
        let wanted = if self.diff { 2 } else { 1 };
        let given = self.files.len();
        if given != wanted {
            let files = ["one file is", "two files are"][wanted - 1];
            return Err(format!("{files} needed here, not {given}"));
        }
        if self.files.iter().filter(|file| *file == "-").count() > 1 {
            return Err("only one of the two files can be standard input".into());
        }
        Ok(())
    }
}

fn colour(value: &str) -> Result<Colour, String> {
    match value {
        "always" => Ok(Colour::Always),
        "never" => Ok(Colour::Never),
        "auto" => Ok(Colour::Auto),
        _ => Err(format!("--colour is always, never or auto, not {value}")),
    }
}

fn number(option: &str, value: &str) -> Result<f64, String> {
    let number = value.parse();
    number.map_err(|_| format!("{option} needs a number, not {value}"))
}
