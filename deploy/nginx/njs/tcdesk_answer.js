// How the proxy answers a post itself, and why a post may be another site's.

// What the desk itself answers to what it cannot read.
const BAD_TEXT = '{"lines":["refused 1 BadText"],"more":0,"refusal":1}';

// The status 200 of an answer to a post, until `given` names it so. nginx tests If-Match, If-None-Match and their like on a 200 alone, and would put 412 or
// 304 in place of the answer to an act that was done.
const GIVEN = 299;

const FORM = /^application\/x-www-form-urlencoded[ \t]*(?:;|$)/i;

// Answers, and lets the access log name the login: its password was looked at before any script.
function answer(r, status, text, type) {
    r.variables.tcdesk_known = '1';
    r.headersOut['Content-Type'] = type || 'application/json';
    r.return(status === 200 ? GIVEN : status, text);
}

// Gives the answer to a post its status, after nginx has made its own tests.
function given(r) {
    if (r.status === GIVEN) {
        r.status = 200;
    }
}

function refuse(r, why) {
    r.error(`tcdesk: refused to the login ${JSON.stringify(r.variables.tcdesk_login)}: ${why}`);
    answer(r, 403, JSON.stringify({proxy: `refused: ${why}`}));
}

// Says that the desk gave no whole answer.
function unknown(r, status) {
    answer(r, status, '{"proxy":"not known: the desk did not answer"}');
}

// Returns whether a post is a form's.
function isForm(r) {
    return FORM.test(r.headersIn['Content-Type'] || '');
}

// Returns why a request may be another site's, or nothing. A browser that has a login sends it along with what a page of another site asks of this one. So
// such a page could command the desk, in the name of who looks at it: a form does, whose fields spell an act in plain text. It cannot send JSON by its type
// of content, unless this site allows it, which it does not. A browser tells besides from where a page comes. What is no browser sends neither of these two.
// The site's own form is taken where `forms` says so; its Origin has to be there.
function foreign(r, forms) {
    const head = r.headersIn, port = r.variables.server_port;
    const own = `https://${r.variables.server_name}${port === '443' ? '' : `:${port}`}`;
    const isOwnForm = forms && isForm(r);
    if (!isOwnForm && !/^application\/json[ \t]*(?:;|$)/i.test(head['Content-Type'] || '')) {
        return 'the Content-Type is not application/json';
    }
    if (head.Origin !== own && (isOwnForm || head.Origin !== undefined)) {
        return 'the Origin is another site';
    }
    return head['Sec-Fetch-Site'] === undefined || head['Sec-Fetch-Site'] === 'same-origin' ? '' : 'Sec-Fetch-Site is not same-origin';
}

export default { answer, given, refuse, unknown, isForm, foreign, BAD_TEXT };
