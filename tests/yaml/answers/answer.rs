use cj_yaml::{Document, Fault, Places, Step, WriteFault, read, write};
use serde_json::{Map, Value};
use std::alloc::{AllocError, Global};

// The answer to a text, as one line of JSON.
pub(crate) fn answer(alloc: Global, text: &[u8]) -> Result<String, AllocError> {
    let value = match read(alloc, text) {
        Ok(documents) => documents_value(alloc, text, documents)?,
        Err(fault) => fault_value(alloc, &fault)?,
    };
    value.to_string(alloc)
}

fn put(
    alloc: Global,
    members: &mut Map<String, Value>,
    name: &str,
    value: Value,
) -> Result<(), AllocError> {
    let name = String::from_str(alloc, name)?;
    drop(members.insert(name, value)?);
    Ok(())
}

fn fault_value(alloc: Global, fault: &Fault) -> Result<Value, AllocError> {
    let kind = fault.kind;
    let mut members = Map::new(alloc);
    put(
        alloc,
        &mut members,
        "kind",
        Value::String(format!(in alloc; "{kind:?}")?),
    )?;
    put(
        alloc,
        &mut members,
        "fault",
        Value::String(format!(in alloc; "{fault}")?),
    )?;
    put(alloc, &mut members, "line", Value::from(fault.place.line))?;
    put(
        alloc,
        &mut members,
        "column",
        Value::from(fault.place.column),
    )?;
    Ok(Value::Object(members))
}

fn documents_value(
    alloc: Global,
    text: &[u8],
    documents: Vec<Document>,
) -> Result<Value, AllocError> {
    let mut found = Vec::new(alloc);
    for document in documents {
        found.push(document_value(alloc, text, document)?)?;
    }
    Ok(Value::Array(found))
}

fn document_value(alloc: Global, text: &[u8], document: Document) -> Result<Value, AllocError> {
    let Document {
        value,
        places,
        warnings,
    } = document;
    let mut told = Vec::new(alloc);
    for warning in &warnings {
        told.push(Value::String(format!(in alloc; "{warning}")?))?;
    }
    let shown = all_places(alloc, text, &places, &value)?;
    let written = written(alloc, &value)?;
    let mut members = Map::new(alloc);
    put(alloc, &mut members, "value", value)?;
    put(alloc, &mut members, "warnings", Value::Array(told))?;
    put(alloc, &mut members, "places", Value::Array(shown))?;
    put(alloc, &mut members, "written", written)?;
    Ok(Value::Object(members))
}

// The text that is written of a value; null where none reads back.
fn written(alloc: Global, value: &Value) -> Result<Value, AllocError> {
    match write(alloc, value) {
        Ok(text) => Ok(Value::String(text)),
        Err(WriteFault::Memory) => Err(AllocError),
        Err(_) => Ok(Value::Null),
    }
}

// The places of a value and of those in it.
fn all_places(
    alloc: Global,
    text: &[u8],
    places: &Places,
    value: &Value,
) -> Result<Vec<Value>, AllocError> {
    let mut shown = Vec::new(alloc);
    let mut path = Vec::new(alloc);
    show(alloc, text, places, value, &mut path, &mut shown)?;
    Ok(shown)
}

// Appends the place of a value at a path, and of those in it.
#[cycle(show)]
fn show<'a>(
    alloc: Global,
    text: &[u8],
    places: &Places,
    value: &'a Value,
    path: &mut Vec<Step<'a>>,
    shown: &mut Vec<Value>,
) -> Result<(), AllocError> {
    let place = match places.nearest(alloc, text, path.as_slice()) {
        Ok(place) => format!(in alloc; "{}:{}", place.line, place.column)?,
        Err(fault) => format!(in alloc; "{fault}")?,
    };
    shown.push(Value::String(place))?;
    match value {
        Value::Array(items) => show_items(alloc, text, places, items, path, shown),
        Value::Object(members) => show_members(alloc, text, places, members, path, shown),
        _ => Ok(()),
    }
}

#[cycle(show)]
fn show_items<'a>(
    alloc: Global,
    text: &[u8],
    places: &Places,
    items: &'a Vec<Value>,
    path: &mut Vec<Step<'a>>,
    shown: &mut Vec<Value>,
) -> Result<(), AllocError> {
    for (number, item) in items.iter().enumerate() {
        path.push(Step::Item(number))?;
        show(alloc, text, places, item, path, shown)?;
        path.pop();
    }
    Ok(())
}

#[cycle(show)]
fn show_members<'a>(
    alloc: Global,
    text: &[u8],
    places: &Places,
    members: &'a Map<String, Value>,
    path: &mut Vec<Step<'a>>,
    shown: &mut Vec<Value>,
) -> Result<(), AllocError> {
    for (key, member) in members.iter() {
        path.push(Step::Key(key.as_str()))?;
        show(alloc, text, places, member, path, shown)?;
        path.pop();
    }
    Ok(())
}
