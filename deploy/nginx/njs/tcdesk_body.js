// Reads the body of a post as the desk reads it, and writes it anew.
//
// njs's own JSON.parse reads each text of a body, but not the whole body: it knows 31 levels, where the desk takes 127; it takes 01 and 1., which are no
// JSON; it takes half of a surrogate pair; and a number loses its spelling, where the desk takes 7 and refuses 7.0.

import qs from 'querystring';

// How deep lists and objects may stand in each other.
const LEVELS = 127;
// A text of JSON with no half of a surrogate pair, a number, and one of the other words.
const TEXT = /^"[^"\\\x00-\x1f]*(?:\\(?:["\\\/bfnrt]|u(?![dD][89a-fA-F])[0-9a-fA-F]{4}|u[dD][89abAB][0-9a-fA-F]{2}\\u[dD][c-fC-F][0-9a-fA-F]{2})[^"\\\x00-\x1f]*)*"$/;
const NUMBER = /^-?(?:0|[1-9][0-9]*)(?:\.[0-9]+)?(?:[eE][+-]?[0-9]+)?$/;
const WORD = /^(?:true|false|null)$/;

function fail() {
    throw new Error('no JSON');
}

// How the members of these keys are spelled in the one object of JSON that a text is; of a key that comes twice, the last. A list or an object is
// told as null: the desk wants neither there.
function members(text, keys) {
    const found = {};
    let at = 0;

    function space() {
        while (text[at] === ' ' || text[at] === '\n' || text[at] === '\r' || text[at] === '\t') {
            at++;
        }
    }

    function is(sign) {
        space();
        const there = text[at] === sign;
        at += there ? 1 : 0;
        return there;
    }

    // The text whose first quote was read: to the next quote with an even number of backslashes before it.
    function quoted() {
        const from = at - 1;
        let back;
        do {
            const end = text.indexOf('"', at);
            back = end;
            while (text[back - 1] === '\\') {
                back--;
            }
            at = end < 0 ? fail() : end + 1;
        } while ((at - 1 - back) % 2);
        const token = text.slice(from, at);
        return TEXT.test(token) ? token : fail();
    }

    // A number that is not past all doubles, or another word.
    function word() {
        const from = at;
        while (at < text.length && ',]} \n\r\t'.indexOf(text[at]) < 0) {
            at++;
        }
        const token = text.slice(from, at);
        return WORD.test(token) || NUMBER.test(token) && isFinite(Number(token)) ? token : fail();
    }

    function key() {
        const token = is('"') ? quoted() : fail();
        return is(':') ? JSON.parse(token) : fail();
    }

    // Not by a call in a call: njs has no room for so many as there may be levels.
    const open = [];  // what closes each list and object that is open
    let name = '';
    space();
    text[at] === '{' || fail();
    do {
        const closes = is('{') ? '}' : is('[') ? ']' : '';
        const spelled = closes ? 'null' : is('"') ? quoted() : word();
        if (open.length === 1 && keys.indexOf(name) >= 0) {
            found[name] = spelled;
        }
        let goes_on = false;
        if (closes) {
            open.push(closes) <= LEVELS || fail();
            goes_on = !is(closes);
            goes_on || open.pop();
        }
        while (!goes_on && open.length) {
            goes_on = is(',');
            goes_on || is(open.pop()) || fail();
        }
        if (goes_on && open[open.length - 1] === '}') {
            name = key();
        }
    } while (open.length);
    space();
    return at === text.length ? found : fail();
}

// Returns the text that a member spells, or nothing if it is no text.
function text(spelled) {
    return spelled !== undefined && spelled[0] === '"' ? JSON.parse(spelled) : undefined;
}

// Returns the body for the desk: these keys in their order, each text written anew, each number in the digits that came. So one post has one spelling, in
// whatever order and by whatever escapes it came.
function written(found, keys) {
    const spelled = (it) => found[it][0] === '"' ? JSON.stringify(text(found[it])) : found[it];
    return '{' + keys.filter((it) => found[it] !== undefined).map((it) => JSON.stringify(it) + ':' + spelled(it)).join(',') + '}';
}

// Returns the text of a request's body; fails if the desk would not take it either: it takes no body without its length.
function came(r) {
    if (r.headersIn['Transfer-Encoding'] !== undefined) {
        fail();
    }
    return new TextDecoder('utf-8', {fatal: true, ignoreBOM: true}).decode(r.requestBuffer);
}

// Returns what `make` makes of the members of a text, or nothing if the desk could not read them.
function tried(make) {
    try {
        const found = make();
        return text(found.by) === undefined ? undefined : found;
    } catch (e) {
        return undefined;
    }
}

// Returns the members of a request's body, or nothing if the desk could not read it either.
function read(r, keys) {
    return tried(() => members(came(r), keys));
}

// Returns the same of the body that stands in a field of a form.
function readForm(r, field, keys) {
    return tried(() => members(qs.parse(came(r))[field], keys));
}

export default { read, readForm, text, written };
