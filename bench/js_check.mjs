// Writes the modules of the tests into a folder, or runs what they export and compares the values.

import { mkdirSync, readFileSync, writeFileSync } from "node:fs";
import { deepStrictEqual } from "node:assert";
import { join } from "node:path";
import { pathToFileURL } from "node:url";

// The texts import `index.js`; in a folder of no package an engine takes them as modules by this name.
const asModule = (text) => text.replaceAll('/index.js"', '/index.mjs"').replaceAll("./foreign.js", "./foreign.mjs");

const foreign = `
export const append = (a) => (b) => a + b;
export const f = (g) => g(7);
const other = 1;
const word = 2;
export { other as "f'", word as "new" };
`;

function write(source, folder) {
    const text = readFileSync(source, "utf8");
    const form = /\/\/\/ The module `([^`]+)`\.\npub const \w+: &str =\s*r#"([\s\S]*?)"#;/g;
    const constants = text.match(/pub const /g).length;
    let found = 0;
    for (const [, name, module] of text.matchAll(form)) {
        mkdirSync(join(folder, name));
        writeFileSync(join(folder, name, "index.mjs"), asModule(module));
        writeFileSync(join(folder, name, "foreign.mjs"), foreign);
        found += 1;
    }
    if (found === 0 || found !== constants) {
        throw new Error(`${found} modules of ${constants} constants were read`);
    }
    console.log(`js_check: ${found} modules`);
}

const fails = (call) => {
    try {
        call();
    } catch (error) {
        return error.message;
    }
    return "no failure";
};

const show = { show: (text) => `<${text}>` };

// A module, what is asked of it, and the value.
const rows = [
    ["M", (m) => m.x, 1],
    ["Plain", (m) => [m.x, m.y, m.z], [1, 2, 3]],
    ["Ranks", (m) => m.g, 7],
    ["Again", (m) => m.x, 1],
    ["Literals", (m) => [m.least, m.greatest], [-2147483648, 2147483647]],
    ["Literals", (m) => [m.empty, m.escapes], ["", "\u0000\b\f\n\r\t\u001f😀"]],
    ["Literals", (m) => m.text, 'a"b\\c\n\t\u0001/é'],
    ["Literals", (m) => [m.letter, m.umlaut, m.yes, m.no], ['"', "ü", true, false]],
    ["Literals", (m) => [m.none, m.some, m.bare], [[], [1, -2, [3]], {}]],
    ["Literals", (m) => m.full, { b: 1, "a'\"": "v", B: { c: 2 } }],
    ["Records", (m) => [m.spaced, m.deep], [3, 2]],
    ["Records", (m) => m.swapped, { x: 2, y: 1, "a b": 3 }],
    ["Records", (m) => m.base, { x: 1, y: 2, "a b": 3 }],
    ["Names", (m) => [m.kept, m.all, m.said], [8, [9, 2, 10, 3], [11, 1, 12]]],
    ["Names", (m) => [m.nothing, m.own], [undefined, [4, 5, 6, 7]]],
    ["Foreign", (m) => [m.both, m.f$27$, m.$$new], ["ab", 1, 2]],
    ["Data.Maybe", (m) => [m.Nothing, m.Just(1)], [{ $: "Nothing" }, { $: "Just", value0: 1 }]],
    ["Pairs", (m) => [m.two, m.value0, m.$$NaN], [2, 0, { $: "NaN" }]],
    ["Use", (m) => [m.just, m.pair, m.keep(5)], [{ $: "Just", value0: 3 }, [1, 1], 5]],
    ["Lets", (m) => [m.x, m.shadow, m.even, m.loop(6)], [1, [4, 1], "even", 6]],
    ["Cases", (m) => [7, -7, 'a"b', "λ", true, false].map(m.literals), ["seven", "minus seven", "text", "letter", "yes", "no"]],
    ["Cases", (m) => fails(() => m.literals(8)), "Failed pattern match"],
    ["Cases", (m) => [[], [4, [5]], [6]].map(m.arrays), [0, 4, 6]],
    ["Cases", (m) => [m.records({ b: 1, "a'": 2, c: 3 }), m.records({ b: 2 })], [[{ b: 1, "a'": 2, c: 3 }, 2], []]],
    ["Cases", (m) => [m.two(8)(2), m.two(1)(3), m.two(8)(9)], [8, 3, [8, 8]]],
    ["Cases", (m) => [m.newtypes({ $: "Wrap", value0: 3, value1: 4 }), m.open, m.nested([1]), m.nested([2]), m.nested([])], [4, 1, "one", 2, "none"]],
    ["Cases", (m) => [m.guards(1)(true)(true), m.guards(1)(false)(true), m.guards(1)(false)(false), m.guards(2)(true)(false)], ["g", "h", "last", 2]],
    ["Cases", (m) => fails(() => m.none(1)), "Failed pattern match"],
    ["Guards", (m) => [m.both(1)(true)(true), m.both(1)(true)(false), m.both(1)(false)(true), m.hollow(1)], ["both", 1, "none", 2]],
    ["Binders", (m) => [m.given, m.years(6), m.names(7)], [5, 6, [7, 7, 7]]],
    ["Binders", (m) => m.deep({ $: "Pair", value0: { "a b": [{ $: "Just", value0: -1 }, 2], b: 3 }, value1: false }), [{ $: "Just", value0: -1 }, 2]],
    ["Binders", (m) => [m.deep([[]]), fails(() => m.deep([[1]]))], [[], "Failed pattern match"]],
    ["Places", (m) => [0, 1, 2].map(m.last), ["zero", "one", "other"]],
    ["Places", (m) => [1, 2, 3, 4].map(m.three), ["one", "two", "three", "other"]],
    ["S", (m) => m.show(m.showMaybe(show))(m.Just("x")), "Just <x>"],
    ["S", (m) => m.twice(m.showMaybe(show))(m.Nothing), "NothingNothing"],
    ["Ord", (m) => m.yes, "yes"],
    ["W1", (m) => m.f(9), 9],
];

async function run(folder) {
    for (const [name, ask, value] of rows) {
        const module = await import(pathToFileURL(join(folder, name, "index.mjs")).href);
        deepStrictEqual(ask(module), value, `${name}: ${ask}`);
    }
    console.log(`js_check: ${rows.length} values`);
}

const [mode, ...words] = process.argv.slice(2);
if (mode === "write") {
    write(words[0], words[1]);
} else {
    await run(words[0]);
}
