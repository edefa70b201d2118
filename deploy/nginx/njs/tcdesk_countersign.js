// The path /countersign: the second person of a step signs the post of the first, and gets the token by which the first may send it.
//
// A client sends the very body of that post. A browser sends it in the form that a GET of this path shows. The answer tells what was signed, with the text
// of the step as the desk has it: who does not want to have signed this keeps the token to himself.

import qs from 'querystring';

import body from 'tcdesk_body.js';
import rights from 'tcdesk_rights.js';
import sign from 'tcdesk_sign.js';
import told from 'tcdesk_answer.js';

// The number of questions: one that nobody uses for an act, whose kept reply would be told here. Such a reply is no line of an execution.
const UNUSED = 4294967295;

// Returns the lines that the desk answers to a question, none if it refuses; fails if it gives no answer.
async function asked(r, login, question) {
    const text = JSON.stringify({act: question, by: login, moment: 0, number: UNUSED});
    const reply = await r.subrequest('/tcdesk-internal/acts', {method: 'POST', body: text});
    if (reply.status >= 500 || reply.headersOut['Content-Type'] !== 'application/json') {
        throw new Error(`the desk answers ${reply.status}`);
    }
    return reply.status === 200 ? JSON.parse(reply.responseText).lines : [];
}

// Returns the step of an execution as `steps` prints it, or nothing if the desk has no such step.
async function stepOf(r, login, execution, step) {
    const log = await asked(r, login, `log ${execution}`);
    const named = /^execution [0-9]+ ([a-z0-9]{1,16}) next [0-9]+$/.exec(log[0] || '');
    const steps = named ? await asked(r, login, `steps ${named[1]}`) : [];
    return steps.find((it) => it.startsWith(`step ${step} `)) || '';
}

function shown(text) {
    return text.replace(/&/g, '&amp;').replace(/</g, '&lt;').replace(/>/g, '&gt;').replace(/"/g, '&quot;');
}

// The page for a browser: what was signed, or why nothing was.
function page(title, rows) {
    const lines = rows.map((it) => `<dt>${it[0]}</dt><dd><code>${shown(it[1])}</code></dd>`).join('\n');
    return `<!DOCTYPE html>\n<html lang="en">\n<head><meta charset="utf-8"><title>${title}</title></head>\n<body>\n<h1>${title}</h1>\n<dl>\n${lines}\n</dl>
<p><a href="/countersign">Sign another step</a></p>\n</body>\n</html>\n`;
}

async function countersign(r) {
    const login = r.variables.tcdesk_login, isPath = r.variables.request_uri === '/countersign';
    if (isPath && r.method === 'GET') {
        r.variables.tcdesk_known = '1';
        return r.internalRedirect('/tcdesk-countersign.html');
    }
    if (!isPath || r.method !== 'POST') {
        return told.answer(r, isPath ? 405 : 404, told.BAD_TEXT);
    }
    const foreign = told.foreign(r, true);
    if (foreign) {
        return told.refuse(r, foreign);
    }
    const found = told.isForm(r) ? body.readForm(r, 'post', sign.KEYS) : body.read(r, sign.KEYS);
    const by = found && body.text(found.by), act = found && body.text(found.act) || '';
    const step = found && sign.isPost(by, act, found) && sign.parts(act);
    const why = !step ? 'this is no post of a step' : !login || step[4] !== login ? 'the second person of the step is not the login'
        : by === login ? 'the second person of the step is the first' : rights.lackOfSigner(r.variables.tcdesk_roles);
    if (why) {
        return told.refuse(r, why);
    }
    let text;
    try {
        text = await stepOf(r, login, step[1], step[2]);
    } catch (e) {
        r.error(`tcdesk: ${e}`);
        return told.unknown(r, 502);
    }
    const made = text && sign.token(r, login, body.written(found, sign.KEYS));
    if (!made) {
        return told.refuse(r, text ? sign.NO_SECRET : 'the desk has no such step');
    }
    if (told.isForm(r)) {
        return told.answer(r, 200, page('Signed', [['for', by], ['act', act], ['under number', found.number], ['at moment', found.moment], ['the step', text],
                                                  ['token, good for two minutes', made]]), 'text/html; charset=utf-8');
    }
    return told.answer(r, 200, JSON.stringify({countersign: made, by: by, act: act, step: text}));
}

export default { countersign };
