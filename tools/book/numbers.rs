//! From the names of a text to the numbers of a grammar.

use crate::equal::repeats;
use crate::grammar::{limit, Grammar, CLASSES_MOST, FIRST_CLASS};
use crate::statements::{fault, Argument, Fault, Production, Source};

impl Source {
    pub fn grammar(&self) -> Result<Grammar, Fault> {
        let sorts = self.sort_names()?;
        let Some(start) = &self.start else {
            return fault(self.line, "no line says `start SORT`".into());
        };
        let mut grammar = Grammar {
            sorts: sorts.len() as u8,
            start: sort_number(&sorts, &start.name, start.line)?,
            productions: Vec::new(),
            classes: self.classes.iter().map(|class| class.ranges.clone()).collect(),
            priorities: Vec::new(),
        };
        for production in &self.productions {
            let line = production.label.line;
            let result = sort_number(&sorts, &production.result, line)?;
            let arguments = production.arguments.iter().map(|a| self.argument_byte(a, line, &sorts, &mut grammar)).collect::<Result<_, _>>()?;
            grammar.productions.push((result, arguments));
        }
        for p in &self.priorities {
            grammar.priorities.push([p.kind, self.production_number(&p.first, p.line)?, self.production_number(&p.second, p.line)?]);
        }
        Ok(grammar)
    }

    // A note on the first rule that is equal to an earlier one.
    pub fn equal_rule(&self, grammar: &Grammar) -> Option<Fault> {
        let repeat = repeats(grammar).into_iter().next()?;
        let named = |rule: usize, else_so: &str| match &self.productions[rule].label.name {
            name if name.is_empty() => else_so.to_string(),
            name => format!("rule `{name}`"),
        };
        let line = |rule: usize| self.productions[rule].label.line;
        let (rule, earlier) = (named(repeat.rule, "the rule"), named(repeat.earlier, "that"));
        Some(Fault { line: line(repeat.rule), what: format!("{rule} is equal to {earlier} of line {}; the library will refuse the book", line(repeat.earlier)) })
    }

    fn class_number(&self, name: &str) -> Option<usize> {
        self.classes.iter().position(|class| class.label.name == name)
    }

    // The sorts in the order of their numbers. A name is a class or a sort, not both.
    fn sort_names(&self) -> Result<Vec<&str>, Fault> {
        let declared = self.sorts.iter().map(|sort| (sort.line, sort.name.as_str()));
        let results = self.productions.iter().map(|p| (p.label.line, p.result.as_str()));
        for (line, name) in declared.clone().chain(results) {
            if self.class_number(name).is_some() {
                return fault(line, format!("`{name}` is a class, so it can't be a sort"));
            }
        }
        if self.sorts.is_empty() {
            return self.sorts_by_use();
        }
        Ok(declared.map(|(_, name)| name).collect())
    }

    fn sorts_by_use(&self) -> Result<Vec<&str>, Fault> {
        let mut sorts = Vec::new();
        for (line, name) in self.productions.iter().flat_map(|p| self.sorts_of(p)) {
            self.result_of_some(name, line)?;
            if !sorts.contains(&name) {
                sorts.push(name);
            }
            limit(sorts.len(), FIRST_CLASS, "sorts").map_err(|what| Fault { line, what })?;
        }
        Ok(sorts)
    }

    // The result of a production and the sorts among its arguments, with its line.
    fn sorts_of<'a>(&'a self, production: &'a Production) -> impl Iterator<Item = (usize, &'a str)> {
        let named = production.arguments.iter().filter_map(|argument| match argument {
            Argument::Named(name) if self.class_number(name).is_none() => Some(name),
            _ => None,
        });
        std::iter::once(&production.result).chain(named).map(|name| (production.label.line, name.as_str()))
    }

    fn result_of_some(&self, name: &str, line: usize) -> Result<(), Fault> {
        if self.productions.iter().any(|p| p.result == name) {
            return Ok(());
        }
        fault(line, format!("`{name}` is neither a class nor the result of a rule; if that is meant, name all sorts in a `sorts` line"))
    }

    fn argument_byte(&self, argument: &Argument, line: usize, sorts: &[&str], grammar: &mut Grammar) -> Result<u8, Fault> {
        let class = match argument {
            Argument::Character(c) => class_for(*c, grammar).map_err(|what| Fault { line, what })?,
            Argument::Named(name) => match self.class_number(name) {
                Some(number) => number,
                None => return sort_number(sorts, name, line),
            },
        };
        Ok((FIRST_CLASS + class) as u8)
    }

    fn production_number(&self, name: &str, line: usize) -> Result<u8, Fault> {
        match self.productions.iter().position(|p| p.label.name == name) {
            Some(number) => Ok(number as u8),
            None => fault(line, format!("no rule is called `{name}`")),
        }
    }
}

fn sort_number(sorts: &[&str], name: &str, line: usize) -> Result<u8, Fault> {
    match sorts.iter().position(|sort| *sort == name) {
        Some(number) => Ok(number as u8),
        None => fault(line, format!("there is no sort `{name}`")),
    }
}

// The class of one character, made if it isn't there.
fn class_for(character: u8, grammar: &mut Grammar) -> Result<usize, String> {
    if let Some(number) = grammar.class_of(character) {
        return Ok(number);
    }
    grammar.classes.push(vec![(character, character)]);
    limit(grammar.classes.len(), CLASSES_MOST, "classes")?;
    Ok(grammar.classes.len() - 1)
}
