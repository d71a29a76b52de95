'use strict';
// The token is sent once, for a cookie that no script can read.
const told = document.getElementById('told');

async function signIn(event) {
  event.preventDefault();
  const token = document.getElementById('token').value.trim(), button = document.querySelector('button');
  if (!/^[!-~]+$/.test(token)) {
    told.textContent = 'A token must have printable characters and no blanks.';
    return;
  }
  button.disabled = true;
  try {
    const headers = { Authorization: 'Bearer ' + token, 'X-Opcplan': 'desk' };
    const found = await fetch('/session', { method: 'POST', headers, redirect: 'error' });
    if (found.ok) return void location.reload();
    told.textContent = found.status === 401 ? 'The desk doesn’t know this token.' : (await found.text()).trim();
  } catch (error) {
    told.textContent = 'The desk doesn’t answer: ' + error.message;
  }
  button.disabled = false;
}
document.getElementById('sign').addEventListener('submit', signIn);
