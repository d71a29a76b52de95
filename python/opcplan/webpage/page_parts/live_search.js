// The search of the live page: Enter asks the desk which run is meant, because it knows all runs. While the desk is gone,
// or if it has no answer, the page looks among its own.

/** Whether the desk is asked for a text: a serial, an application's whole name, or a name with a day or a time. */
const isMeant = text => SERIAL.test(text) || /\S\s+\S/.test(text) || D.apps.some(one => one[0] === text);

function findMeant() {
  const typedText = $('#find').value, text = typedText.trim().toUpperCase();
  if (live.lost || !isMeant(text)) return false;
  askMeant(typedText, text);
  return true;
}
onFind.push(findMeant);

async function askMeant(typedText, text) {
  const answer = await askAct({ of: text });
  if ($('#find').value !== typedText) return;
  openMeant(text, answer.isOpen ? foundHere(text) ?? answer : answer);
}
