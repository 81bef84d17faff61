// The package sfq as the page of tables asks it. `startTables()` returns these once the module is ready.
//
//   asking(schema, tables, query)   asks a query: a generator, which yields the number of rows so far about 30 times a second, and
//                                   whose `return` ends the query. It returns {answer: text, loaded}, or {fault: line, loaded}
//   about                           what the module is
//
// The tables are texts of CSV, in the schema's order. `asking` loads those of them that it hasn't loaded yet, `loaded` in number, and
// keeps them. The header, the rows and the line of a fault are as `run` writes them. It throws where memory runs out. A text may be given
// as its bytes too.
"use strict";

const OTHER_NUMBER = "the schema has another number of tables";

// The faults of a query's grammar: `run` has them before it loads tables, and those of what names mean behind that.
const OF_GRAMMAR = ["Q1", "Q2", "Q10", "Q11", "Q12"];

// The database that is kept: what is as it was when it was asked before stays loaded.
class KeptTables {
  #database = null;
  #schema = null;
  // Of each table that was loaded or refused last its text, and the error that refused it or null.
  #texts = [];

  // Opens the database of a schema, where it isn't open.
  #open(schema) {
    if (this.#database && schema === this.#schema) return;
    this.#database?.free();
    [this.#database, this.#schema, this.#texts] = [null, null, []];
    [this.#database, this.#schema] = [sfq.Database.open(schema), schema];
  }

  // Whether a table was loaded of this text. Throws where the text was refused.
  #isLoaded(place, text) {
    const was = this.#texts[place];
    if (was?.text !== text) return false;
    if (was.error) throw was.error;
    return true;
  }

  #load(place, text) {
    this.#texts[place] = null;
    try {
      this.#database.load(this.#database.tables[place].name, text);
      this.#texts[place] = { text, error: null };
    } catch (error) {
      if (error instanceof sfq.FaultError) this.#texts[place] = { text, error };
      throw error;
    }
  }

  // Throws where the query has a fault of its grammar.
  #needGrammar(query) {
    try {
      this.#database.prepare(query).free();
    } catch (error) {
      if (error instanceof sfq.NotLoadedError || (error instanceof sfq.FaultError && !OF_GRAMMAR.includes(error.code))) return;
      throw error;
    }
  }

  // Asks a query over tables. Returns what the head of this file says.
  *asking(schema, tables, query) {
    let loaded = 0;
    try {
      this.#open(schema);
      if (this.#database.tables.length !== tables.length) return { fault: OTHER_NUMBER, loaded };
      if (tables.some((text, place) => this.#texts[place]?.text !== text || this.#texts[place].error)) this.#needGrammar(query);
      for (const [place, text] of tables.entries()) {
        if (this.#isLoaded(place, text)) continue;
        this.#load(place, text);
        loaded++;
      }
      return { answer: yield* answerOf(this.#database.prepare(query)), loaded };
    } catch (error) {
      if (error instanceof sfq.FaultError) return { fault: `sfq: ${error.place}`, loaded };
      throw error;
    }
  }
}

// Finds the rows of a statement, and ends it. Returns the text of the header and the rows.
function* answerOf(statement) {
  try {
    const pace = paceOf(), parts = [statement.headerText];
    for (;;) {
      const came = statement.step(pace.looks);
      if (came === "end") return parts.join("");
      if (came === "row") parts.push(statement.rowText);
      if (!pace.isOver(came === "busy")) continue;
      yield parts.length - 1;
      pace.goOn();
    }
  } finally {
    statement.free();
  }
}

// How many candidates a step looks at, so that steps stay short, and when it is time to rest. In milliseconds.
function paceOf() {
  const REST = 30, LONG = 10, MOST = 4096;
  let begun = performance.now(), last = begun;
  return {
    looks: 16,
    goOn() {
      begun = last = performance.now();
    },
    isOver(isBusy) {
      const now = performance.now(), took = now - last;
      if (took > LONG) this.looks = Math.max(1, Math.floor((this.looks * LONG) / took));
      else if (isBusy) this.looks = Math.min(2 * this.looks, MOST);
      last = now;
      return now - begun > REST;
    },
  };
}

function loadScript(name) {
  return new Promise((done, fail) => {
    const it = document.createElement("script");
    it.src = name;
    it.onload = done;
    it.onerror = () => fail(new Error(`${name} isn't there`));
    document.head.append(it);
  });
}

// Starts the module of the page, whose script is loaded the first time.
async function startTables() {
  if (typeof TABLES_MODULE === "undefined") await loadScript("tables_module.js");
  await sfq.start(TABLES_MODULE.bytes);
  const kept = new KeptTables();
  return { asking: (...words) => kept.asking(...words), about: TABLES_MODULE.about };
}
