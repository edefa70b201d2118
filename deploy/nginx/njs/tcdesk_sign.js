// The signature of a step's second person: a token that a proxy of this secret gives to a login, for one post of another.
//
// A token is SIGNER.TIME.MAC. The MAC is over the site, the signer, the time and the very bytes that the desk is sent: who acts, under which number, at which
// moment, and the act. So no token fits another post. The desk carries out one act at most of one person and number, and answers each repeat with the kept
// reply: so a token is good for one act, and for its repeats, without a list of those that were used.

import crypto from 'crypto';
import fs from 'fs';

const SECRET = '/etc/nginx/tcdesk.secret';
const NO_SECRET = 'the proxy has no secret to sign with';
// how many seconds a token is good for
const GOOD = 120;

// how far the clocks of two proxies of one secret may be apart, in seconds
const APART = 5;

// the keys of the post of an act
const KEYS = ['act', 'by', 'moment', 'number'];
const STEP = /^step (0|[1-9][0-9]{0,9}) (0|[1-9][0-9]{0,9}) (done|skipped|failed) (-|[a-z0-9]{1,16})$/;
const NAME = /^[a-z0-9]{1,16}$/;
const DIGITS = /^(?:0|[1-9][0-9]{0,9})$/;
const TOKEN = /^([a-z0-9]{1,16})\.([1-9][0-9]{0,11})\.([0-9a-f]{64})$/;

// Returns what a pattern finds in a text, if that is all of it: `$` alone would let a newline stand behind.
function whole(pattern, text) {
    const found = pattern.exec(text);
    return found && found[0] === text ? found : null;
}

// Returns whether an act begins as a step does.
function isStep(act) {
    return act !== undefined && act.split(' ')[0] === 'step';
}

// Returns the whole text of a step, its execution, step, verdict and second person, as the desk reads them; nothing if the desk would refuse the text.
function parts(act) {
    return whole(STEP, act);
}

// Returns the second person of a step, `-` if there is none; nothing if the desk would refuse the text.
function second(act) {
    const found = parts(act);
    return found ? found[4] : '';
}

// Returns whether these members are a post of a step that the desk can read.
function isPost(by, act, found) {
    const isNumber = (key) => whole(DIGITS, found[key] || '') !== null;
    return whole(NAME, by) && whole(STEP, act) && isNumber('moment') && isNumber('number') && found.number !== '0';
}

// Returns the MAC, or nothing if the secret cannot be read, which the log says.
function mac(r, signer, time, text) {
    try {
        const secret = fs.readFileSync(SECRET, 'utf8').trim();
        if (secret.length < 32) {
            throw new Error(`${SECRET} has less than 32 characters`);
        }
        const signed = JSON.stringify(['tcdesk countersign', r.variables.server_name, signer, time, text]);
        return crypto.createHmac('sha256', secret).update(signed).digest('hex');
    } catch (e) {
        r.error(`tcdesk: ${NO_SECRET}: ${e}`);
        return '';
    }
}

// Compares two texts in a time that does not tell where they differ.
function isSame(one, other) {
    let unlike = one.length ^ other.length;
    for (let at = 0; at < one.length; at++) {
        unlike |= one.charCodeAt(at) ^ other.charCodeAt(at);
    }
    return unlike === 0;
}

function now() {
    return Math.floor(Date.now() / 1000);
}

// Returns a token of the signer for a post, or nothing if there is no secret.
function token(r, signer, text) {
    const time = String(now()), made = mac(r, signer, time, text);
    return made && `${signer}.${time}.${made}`;
}

// Returns why the header of a post is no token of its second person, or nothing if it is one.
function unsigned(r, second, first, text) {
    const found = whole(TOKEN, r.headersIn['Tcdesk-Countersign'] || '');
    if (second === first) {
        return 'the second person of the step is the first';
    }
    if (!found) {
        return `${second} has not signed the step: Tcdesk-Countersign has no token`;
    }
    const made = mac(r, found[1], found[2], text);
    if (!made) {
        return NO_SECRET;
    }
    if (found[1] !== second || !isSame(made, found[3])) {
        return `${second} has not signed this very post`;
    }
    const age = now() - Number(found[2]);
    return age >= -APART && age <= GOOD ? '' : `the token of ${second} is not of the last two minutes`;
}

export default { isStep, parts, second, isPost, token, unsigned, KEYS, NO_SECRET };
