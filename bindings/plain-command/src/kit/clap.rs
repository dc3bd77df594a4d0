//! The command line. The signatures are the port's: calls that add to a list return a `Result`, though they never fail
//! here, and matches lend the texts of the words.

use crate::fallible::String;
use crate::fallible::alloc::{AllocError, Global};
use std::any::Any;
use std::collections::HashMap;
use std::marker::PhantomData;

pub use ::clap::{ArgAction, Error, value_parser};

/// A command or a subcommand.
pub struct Command<'a>(::clap::Command, PhantomData<&'a str>);

impl<'a> Command<'a> {
    /// A command of this name.
    pub fn new(_: Global, name: &'static str) -> Self {
        Command(::clap::Command::new(name), PhantomData)
    }

    /// Its description in the help.
    pub fn about(self, about: &'static str) -> Self {
        Command(self.0.about(about), PhantomData)
    }

    /// Its version, followed by `, in plain Rust`.
    pub fn version(self, version: &str) -> Self {
        Command(self.0.version(&*format!("{version}, in plain Rust").leak()), PhantomData)
    }

    /// Whether it requires a subcommand.
    pub fn subcommand_required(self, is_required: bool) -> Self {
        Command(self.0.subcommand_required(is_required), PhantomData)
    }

    /// Whether it prints its help if it has no arguments.
    pub fn arg_required_else_help(self, is_required: bool) -> Self {
        Command(self.0.arg_required_else_help(is_required), PhantomData)
    }

    /// Its name in its usage.
    pub fn bin_name(self, name: &'static str) -> Result<Self, AllocError> {
        Ok(Command(self.0.bin_name(name), PhantomData))
    }

    /// Adds an argument or an option.
    pub fn arg(self, arg: Arg<'a>) -> Result<Self, AllocError> {
        Ok(Command(self.0.arg(arg.0), PhantomData))
    }

    /// Adds a subcommand.
    pub fn subcommand(self, subcommand: Command<'a>) -> Result<Self, AllocError> {
        Ok(Command(self.0.subcommand(subcommand.0), PhantomData))
    }

    /// The matches of these words. The first word is the name of the program.
    pub fn try_get_matches_from<'w>(self, words: &'w [String]) -> Result<ArgMatches<'w>, Error> {
        let words = words.iter().map(String::as_str);
        self.0.try_get_matches_from(words).map(ArgMatches::of)
    }
}

/// An argument or an option.
pub struct Arg<'a>(::clap::Arg, PhantomData<&'a str>);

impl Arg<'_> {
    /// An argument or an option with this id.
    pub fn new(_: Global, id: &'static str) -> Self {
        Arg(::clap::Arg::new(id), PhantomData)
    }

    /// The letter of an option.
    pub fn short(self, letter: char) -> Self {
        Arg(self.0.short(letter), PhantomData)
    }

    /// The name of an option.
    pub fn long(self, name: &'static str) -> Self {
        Arg(self.0.long(name), PhantomData)
    }

    /// The name of its value in the help.
    pub fn value_name(self, name: &'static str) -> Self {
        Arg(self.0.value_name(name), PhantomData)
    }

    /// Its text in the help.
    pub fn help(self, text: &'static str) -> Self {
        Arg(self.0.help(text), PhantomData)
    }

    /// The action for its values.
    pub fn action(self, action: ArgAction) -> Self {
        Arg(self.0.action(action), PhantomData)
    }

    /// How many values it has.
    pub fn num_args(self, count: std::ops::RangeFrom<usize>) -> Self {
        Arg(self.0.num_args(count), PhantomData)
    }

    /// The parser of its values.
    pub fn value_parser(self, parser: impl Into<::clap::builder::ValueParser>) -> Self {
        Arg(self.0.value_parser(parser.into()), PhantomData)
    }

    /// Whether it is required.
    pub fn required(self, is_required: bool) -> Self {
        Arg(self.0.required(is_required), PhantomData)
    }

    /// It is required unless the argument or option with this id is present.
    pub fn required_unless_present(self, id: &'static str) -> Result<Self, AllocError> {
        Ok(Arg(self.0.required_unless_present(id), PhantomData))
    }
}

/// The arguments, options and the subcommand of a command line.
pub struct ArgMatches<'w> {
    found: ::clap::ArgMatches,
    /// The texts of arguments and options, by their ids.
    texts: HashMap<std::string::String, std::vec::Vec<&'w str>>,
    subcommand: Option<(std::string::String, Box<ArgMatches<'w>>)>,
}

impl<'w> ArgMatches<'w> {
    /// The texts live as long as the program, which has one command line.
    fn of(mut found: ::clap::ArgMatches) -> Self {
        let mut texts = HashMap::new();
        for id in found.ids() {
            if let Ok(Some(values)) = found.try_get_many::<std::string::String>(id.as_str()) {
                let lent = values.map(|value| &*value.clone().leak()).collect();
                texts.insert(id.as_str().to_owned(), lent);
            }
        }
        let subcommand =
            found.remove_subcommand().map(|(name, below)| (name, Box::new(ArgMatches::of(below))));
        ArgMatches { found, texts, subcommand }
    }

    /// The name and the matches of the subcommand.
    pub fn subcommand(&self) -> Option<(&str, &ArgMatches<'w>)> {
        self.subcommand.as_ref().map(|(name, below)| (name.as_str(), &**below))
    }

    /// The texts of this id.
    pub fn get_strs(&self, id: &str) -> Option<&[&'w str]> {
        self.texts.get(id).map(|texts| texts.as_slice())
    }

    /// The first text of this id.
    pub fn get_str(&self, id: &str) -> Option<&'w str> {
        self.get_strs(id)?.first().copied()
    }

    /// The value of this id.
    pub fn get_one<T: Any + Copy + Send + Sync>(&self, id: &str) -> Option<T> {
        self.found.try_get_one(id).ok().flatten().copied()
    }

    /// Whether an option without a value is given.
    pub fn get_flag(&self, id: &str) -> bool {
        self.get_one(id).unwrap_or(false)
    }
}
