// Why the venue refuses something, in German: what it says, with {} for each gap, and what is said
// in its place. A gap is a number, a phase, a field of a form, or a reason again.
import { grouped } from "./numbers.js";

const GERMAN = {
  "an auction is going on of {}: end its call, and uncross":
    "eine Auktion läuft noch von {}: den Aufruf beenden und den Preis ermitteln",
  "the round is {}": "es ist Runde {}",
  "the round has begun": "die Runde hat begonnen",
  "the phase is {} and no longer {}": "der Stand ist „{}“ und nicht mehr „{}“",
  "no call can start in the phase {}": "im Stand „{}“ beginnt kein Aufruf",
  "no call can end in the phase {}": "im Stand „{}“ endet kein Aufruf",
  "no call can be extended in the phase {}": "im Stand „{}“ wird kein Aufruf verlängert",
  "nothing can be frozen in the phase {}": "im Stand „{}“ wird nichts angehalten",
  "nothing can be uncrossed in the phase {}": "im Stand „{}“ wird kein Preis ermittelt",
  "nothing is frozen": "nichts ist angehalten",
  "an uncross is going on": "ein Preis wird gerade ermittelt",
  "the last uncross isn't seen yet": "die letzte Preisermittlung ist noch nicht zu sehen",
  "the program doesn't answer now": "das Programm antwortet gerade nicht",
  "the machine's clock is {} s ahead of the log's last line, and the call of {} has ended by it":
    "die Uhr ist der letzten Zeile des Protokolls {} s voraus, der Aufruf von {} danach zu Ende",
  "the log's last line is {} s old, and the call of {} has ended since":
    "die letzte Zeile des Protokolls ist {} s alt, der Aufruf von {} seitdem zu Ende",
  "the call of {} has ended while it had halted": "der Aufruf von {} ging zu Ende, während es ausgesetzt war",
  "`extend` lets it go on": "„Verlängern“ hilft",
  "it goes on for {} s, then it is uncrossed": "er geht noch {} s weiter, dann wird der Preis ermittelt",
  "journal failed": "das Journal konnte nicht geschrieben werden",
  "journal in use": "ein anderer Prozess hat das Journal",
  "journal open failed": "das Journal kann nicht geöffnet werden",
  "the journal is missing": "das Journal fehlt",
  "the journal is missing, and the log knows of {} entries": "das Journal fehlt, und das Protokoll kennt {} Einträge",
  "the journal is an older one: it has {} entries, and the log knows of {}":
    "das Journal ist ein älteres: Es hat {} Einträge, und das Protokoll kennt {}",
  "the journal is another one: its first {} entries aren't those of which the log knows":
    "das Journal ist ein anderes: Seine ersten {} Einträge sind nicht die, die das Protokoll kennt",
  "the journal is another one: its first line isn't the day's":
    "das Journal ist ein anderes: Seine erste Zeile ist nicht die dieses Tages",
  "the journal is another one: its entries differ from the day's from the first on":
    "das Journal ist ein anderes: Seine Einträge sind vom ersten an nicht die dieses Tages",
  "the journal is a longer one: it has {} entries, and the log knows of {}":
    "das Journal ist ein längeres: Es hat {} Einträge, und das Protokoll kennt {}",
  "the journal was changed while its program began": "das Journal wurde verändert, während sein Programm begann",
  "the journal has entries, and the log none of its messages":
    "das Journal hat Einträge, und das Protokoll keine Nachricht dazu",
  "entry {} of the journal is no message of the log": "Eintrag {} des Journals ist keine Nachricht des Protokolls",
  "{} may be written by other users: chmod go-w": "{} dürfen andere Benutzer schreiben: chmod go-w",
  "{} belongs to another user: find out who, then chown":
    "{} gehört einem anderen Benutzer: herausfinden, wem; dann chown",
  "{} is a link: put the file itself there": "{} ist ein Link: die Datei selbst dorthin legen",
  "{} is no regular file: move it away": "{} ist keine Datei: es wegräumen",
  "the program was ended by signal {}": "das Programm wurde durch Signal {} beendet",
  "the program hasn't answered for {} s": "das Programm hat {} s lang nicht geantwortet",
  "the program hasn't begun for {} s": "das Programm hat in {} s nicht begonnen",
  "the program can't be run: {}": "das Programm kann nicht gestartet werden: {}",
  "the program doesn't run": "das Programm läuft nicht",
  "the program answers entry {} after entry {}": "das Programm antwortet mit Eintrag {} nach Eintrag {}",
  "the venue's log can't be written: it waits for the disk for more than {} s":
    "das Protokoll wartet seit mehr als {} s auf den Datenträger",
  "the venue's log can't be written: {}": "das Protokoll kann nicht geschrieben werden: {}",
  "it can't be made now, as its process was ended by signal {}: try again":
    "das geht gerade nicht, der Prozess wurde durch Signal {} beendet: noch einmal versuchen",
  "it can't be made now, as memory is short: try again": "das geht gerade nicht, der Speicher ist knapp: noch einmal",
  "values by chance have a low and a high price": "Werte durch Zufall haben ein Tief und ein Hoch",
  "low {} is above high {}": "Tief {} liegt über Hoch {}",
  "a schedule has prices of demand and of supply": "eine Liste hat Preise der Nachfrage und des Angebots",
  "the list of values is empty": "die Liste der Werte ist leer",
  "the first line isn't name,side,price,quantity, perhaps with round":
    "die erste Zeile ist nicht Name;Seite;Preis;Menge, vielleicht mit Runde",
  "line {}: side {} is neither bid nor ask": "Zeile {}: Seite {} ist weder Kauf noch Verkauf",
  "line {}: quantity {} is no number of shares": "Zeile {}: Menge {} ist keine Zahl von Stücken",
  "line {}: round {} is no number of a round": "Zeile {}: Runde {} ist keine Nummer einer Runde",
  "there is no column {}, but {}": "die Spalte {} gibt es nicht, nur {}",
  "two columns are {}": "zwei Spalten sind {}",
  "line {}: the name is empty": "Zeile {}: Der Name ist leer",
  "line {}: {} is in line {} too": "Zeile {}: {} steht schon in Zeile {}",
  "line {}: {} is in no column: decimal commas need semicolons":
    "Zeile {}: {} steht in keiner Spalte: Zu Dezimalkommas gehören Strichpunkte",
  "line {}: {}": "Zeile {}: {}",
  "the value {} isn't from {} to {}": "der Wert {} liegt nicht zwischen {} und {}",
  "the reference {} isn't from {} to {}": "die Referenz {} liegt nicht zwischen {} und {}",
  "the price {} is no multiple of the tick size {}": "der Preis {} ist kein Vielfaches von {}",
  "the reference {} is no multiple of the tick size {}": "die Referenz {} ist kein Vielfaches von {}",
  "the price {} is no whole number from {} to {}": "der Preis {} ist zu groß",
  "the price {} is no decimal number": "der Preis {} ist keine Zahl",
  "the reference {} is no whole number from {} to {}": "die Referenz {} ist zu groß",
  "the reference {} is no decimal number": "die Referenz {} ist keine Zahl",
  "language is none of en, de": "die Sprache ist weder en noch de",
  "there is no member {}": "{} ist kein Mitglied",
  "{} is removed already": "{} ist schon entfernt",
  "{} isn't removed": "{} ist nicht entfernt",
  "this name is a role's here": "dieser Name ist hier der einer Rolle",
  "text has more than {} letters": "mehr als {} Zeichen",
  "text has <, > or a control character": "hier steht <, > oder ein Steuerzeichen",
  "round: {} {} has more than {} letters": "{}: {} hat mehr als {} Zeichen",
  "round: {} {} has <, > or a control character": "{}: {} enthält <, > oder ein Steuerzeichen",
  "round: {} {} is no whole number from {} to {}": "{}: {} ist keine ganze Zahl von {} bis {}",
  "{} is no whole number from {} to {}": "{}: eine ganze Zahl von {} bis {}",
  "at most {} shares more can be entered on this side": "auf dieser Seite höchstens noch {} Stück",
  "at most {} more can be spent": "höchstens noch {} auszugeben",
  "an order has at most {} shares": "eine Order hat höchstens {} Stück",
  "a member has at most {} commands a day of an instrument": "ein Mitglied hat am Tag höchstens {} Eingaben",
  "a member has at most {} commands, while a quarter of the day's is left, of an instrument":
    "ein Mitglied hat höchstens {} Eingaben, solange am Tag nur noch ein Viertel übrig ist",
  "a member has at most {} open orders of an instrument": "ein Mitglied hat höchstens {} offene Orders",
  "a member has at most {} shares in open orders of an instrument":
    "ein Mitglied hat höchstens {} Stück in offenen Orders",
  "a member has at most a value of {} in orders of an instrument":
    "offene Orders eines Mitglieds haben höchstens den Wert {}",
};
const WORDS = {
  waiting: "noch kein Aufruf", call: "Aufrufphase", extended: "verlängerte Aufrufphase", ended: "Aufruf beendet",
  over: "Handelstag beendet", title: "Titel", message: "Allen gesagt", seconds: "Sekunden", count: "Anzahl",
  quantity: "Menge", shares: "Stück",
  "it was changed by others": "andere haben es verändert",
  "No space left on device": "der Datenträger ist voll", "Input/output error": "Fehler des Datenträgers",
  "Disk quota exceeded": "das Kontingent des Datenträgers ist verbraucht", "File too large": "die Datei ist zu groß",
  "No such file or directory": "keine solche Datei", "Permission denied": "keine Erlaubnis",
  "Read-only file system": "der Datenträger ist nur zum Lesen da",
};
const NUMBER = /^\d+(\.\d+)?$/;
const patternOf = (words) => new RegExp(`^${words.split("{}")
  .map((part) => part.replace(/[.*+?^$()|[\]\\]/g, "\\$&")).join("(.*?)")}$`, "s");
const PATTERNS = Object.entries(GERMAN).map(([words, german]) => [patternOf(words), german]);

const gapOf = (words) => (NUMBER.test(words) ? grouped(words, "de") : WORDS[words] ?? words);

// A reason of the venue in a language; one that isn't known as it is.
export function reasonIn(words, language) {
  if (language !== "de") return words;
  for (const [pattern, german] of PATTERNS) {
    const [found, ...gaps] = pattern.exec(words) ?? [];
    if (found !== undefined) return german.replace(/\{\}/g, () => gapOf(gaps.shift()));
  }
  return words;
}
