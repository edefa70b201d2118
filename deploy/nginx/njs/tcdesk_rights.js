// What a role may do. The map $tcdesk_roles has the roles of who logged in, parted by commas; a login that it does not name may only look.

// The acts and questions of the desk by their first words. README.md has them as a table, and docs/manual/ (acts.md, questions.md) says what each does.
const VERBS = {
    look: ['places', 'history', 'request', 'link', 'schedule', 'log', 'report', 'waiting', 'urgent', 'moves', 'standing', 'steps'],
    enter: ['enter', 'withdraw', 'stack', 'procedure'],
    approve: ['approve', 'approvestack'],
    release: ['release', 'begin', 'step', 'close', 'initiate', 'terminate', 'set', 'tick', 'up', 'clcw', 'down', 'work', 'clock', 'loseup', 'losedown']
};
const ROLES = Object.keys(VERBS);

// Returns why a login of these roles may not do an act, or nothing if it may. A load has no act, and is an entry.
function lack(roles, act) {
    const own = ['look'].concat(roles.split(','));
    const verb = act === undefined ? 'enter' : act.split(' ')[0];
    const needed = ROLES.filter((it) => VERBS[it].indexOf(verb) >= 0);
    // the desk refuses a word that it does not know; a desk of a later version may know it
    const missing = (needed.length ? needed : ROLES).filter((it) => own.indexOf(it) < 0);
    return missing.length ? `the login has not the role ${missing[0]}` : '';
}

// Returns why a login of these roles may not sign the step of another, or nothing if it may.
function lackOfSigner(roles) {
    const own = roles.split(',');
    return own.indexOf('approve') >= 0 || own.indexOf('release') >= 0 ? '' : 'the login has neither the role approve nor the role release';
}

export default { lack, lackOfSigner };
