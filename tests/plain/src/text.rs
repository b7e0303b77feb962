//! Plans and events read from texts that are known to be good; anything else is an `Err` with its line.

use crate::interlocking::{Lie, Request};
use crate::plan::{End, Need, Plan, Route, Section, OUTSIDE, POINTS};
use crate::world::Event;

type Words<'a> = std::iter::Peekable<std::str::SplitAsciiWhitespace<'a>>;

fn number(words: &mut Words) -> Option<u16> {
    words.next()?.trim_end_matches(':').parse().ok()
}

fn up(words: &mut Words) -> Option<bool> {
    match words.next()? {
        "up" => Some(true),
        "down" => Some(false),
        _ => None,
    }
}

fn word(words: &mut Words, expected: &str) -> Option<()> {
    (words.next()? == expected).then_some(())
}

/// A section, or outside.
fn beyond(words: &mut Words) -> Option<u16> {
    if words.next_if_eq(&"outside").is_some() {
        return Some(OUTSIDE);
    }
    number(words)
}

fn end(words: &mut Words) -> Option<End> {
    if words.next_if_eq(&"point").is_none() {
        return beyond(words).map(End::fixed);
    }
    let (point, left) = (number(words)?, beyond(words)?);
    word(words, "or")?;
    Some(End::moved(point, left, beyond(words)?))
}

fn route(words: &mut Words) -> Option<Route> {
    let up = up(words)?;
    word(words, "from")?;
    let mut route = Route { begin: number(words)?, up, path: Vec::new(), needs: Vec::new() };
    word(words, "by")?;
    while words.peek().is_some_and(|w| *w != "needs") {
        route.path.push(number(words)?);
    }
    words.next();
    while words.peek().is_some() {
        route.needs.push(Need { point: number(words)?, left: words.next()? == "left" });
    }
    Some(route)
}

fn statement(plan: &mut Plan, words: &mut Words) -> Option<()> {
    match words.next()? {
        "section" => {
            let there = plan.sections.get_mut(number(words)? as usize)?;
            while words.peek().is_some() {
                let up = up(words)?;
                *there.end_mut(up) = end(words)?;
            }
        }
        "point" => {
            let q = number(words)? as usize;
            word(words, "in")?;
            *plan.places.get_mut(q)? = number(words)?;
        }
        "signal" => {
            let up = up(words)?;
            plan.sections.get_mut(number(words)? as usize)?.set_signal(up, true);
        }
        "edge" => plan.sections.get_mut(number(words)? as usize)?.edge = true,
        "route" => plan.routes.push(route(words)?),
        "time" => plan.time = number(words)?,
        _ => return None,
    }
    Some(())
}

/// The lines that say something, counted from 1.
fn lines(text: &str) -> impl Iterator<Item = (usize, &str)> {
    let said = text.lines().map(|line| line.split('#').next().unwrap_or("").trim());
    said.enumerate().map(|(i, line)| (i + 1, line)).filter(|(_, line)| !line.is_empty())
}

pub fn plan(text: &str) -> Result<Plan, usize> {
    let count = |word: &str| lines(text).filter(|(_, line)| line.starts_with(word)).count();
    let nothing = Section::new(End::fixed(OUTSIDE), End::fixed(OUTSIDE));
    let mut plan = Plan::new(vec![nothing; count("section ")], vec![0; count("point ")], Vec::new(), 0);
    for (i, line) in lines(text) {
        let mut words = line.split_ascii_whitespace().peekable();
        statement(&mut plan, &mut words).ok_or(i)?;
    }
    plan.settle();
    Ok(plan)
}

fn event(words: &mut Words) -> Option<Event> {
    Some(match words.next()? {
        "ask" => Event::Asked(Request::Ask(number(words)?)),
        "clear" => Event::Asked(Request::Clear(number(words)?)),
        "back" => Event::Asked(Request::Back(number(words)?)),
        "free" => Event::Asked(Request::Free(number(words)?)),
        "tick" => Event::Asked(Request::Tick),
        "turns" => Event::Turns(number(words)?),
        "comes" => Event::Comes(number(words)?, up(words)?, number(words)?),
        "goes" => Event::Goes(number(words)?),
        "draws" => Event::Draws(number(words)?),
        "reverses" => Event::Reverses(number(words)?),
        "leaves" => Event::Leaves(number(words)?),
        _ => return None,
    })
}

/// The events; `lies` lines before them say how points lie at first.
pub fn events(text: &str) -> Result<(Lie, Vec<Event>), usize> {
    let mut lie = Lie([true; POINTS]);
    let mut events = Vec::new();
    for (i, line) in lines(text) {
        let mut words = line.split_ascii_whitespace().peekable();
        if words.next_if_eq(&"lies").is_some() {
            let point = number(&mut words).ok_or(i)? as usize;
            *lie.0.get_mut(point).ok_or(i)? = words.next().ok_or(i)? == "left";
        } else {
            events.push(event(&mut words).ok_or(i)?);
        }
    }
    Ok((lie, events))
}
