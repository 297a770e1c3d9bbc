//! Prints each kept scope of an answer with its dependencies by name: `kept_scopes < ANSWER`.

use serde_json::Value;
use std::error::Error;
use std::io;

/// A name; a temporary has none, so its number is shown.
fn name_of(env: &Value, identifier: &Value) -> Option<String> {
    let index = usize::try_from(identifier.as_u64()?).ok()?;
    let name = env["identifiers"].get(index)?["name"]["v"].as_str();
    Some(name.map_or_else(|| format!("${index}"), str::to_owned))
}

/// A step to a property, as JavaScript writes it.
fn step_of(step: &Value) -> Option<String> {
    let name = step["property"]["v"].as_str()?;
    let is_number = step["property"]["k"] == "Number";
    Some(match (is_number, step["optional"].as_bool()?) {
        (false, false) => format!(".{name}"),
        (false, true) => format!("?.{name}"),
        (true, false) => format!("[{name}]"),
        (true, true) => format!("?.[{name}]"),
    })
}

/// A dependency, from its name on.
fn path_of(env: &Value, dependency: &Value) -> Option<String> {
    let steps: Option<String> = dependency["path"].as_array()?.iter().map(step_of).collect();
    Some(name_of(env, &dependency["identifier"])? + &steps?)
}

/// The line of a scope. It has none where this is no answer.
fn line_of(env: &Value, scope: &Value) -> Option<String> {
    let index = usize::try_from(scope.as_u64()?).ok()?;
    let dependencies = env["scopes"].get(index)?["dependencies"].as_array()?;
    let paths: Option<Vec<String>> = dependencies.iter().map(|it| path_of(env, it)).collect();
    let paths = paths?.join(", ");
    let paths = if paths.is_empty() { "nothing" } else { &paths };
    Some(format!("scope {scope} depends on {paths}"))
}

/// The lines of the kept scopes.
fn lines_of(answer: &Value) -> Option<Vec<String>> {
    let fates = answer["fates"].as_array()?.iter();
    fates
        .filter(|it| it["fate"] == "Kept")
        .map(|it| line_of(&answer["env"], &it["scope"]))
        .collect()
}

fn main() -> Result<(), Box<dyn Error>> {
    let answer: Value = serde_json::from_reader(io::stdin().lock())?;
    for line in lines_of(&answer).ok_or("this is no answer of rc")? {
        println!("{line}");
    }
    Ok(())
}
