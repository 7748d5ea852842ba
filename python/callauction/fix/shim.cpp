// The FIX sessions of QuickFIX for Python: the module `_quickfix`, which build.py makes. The session protocol (sequence
// numbers, resends, heartbeats, the store) is QuickFIX's alone. There are no sockets and no threads: whoever has the
// connections brings their bytes and takes those that are to be sent.
#include <pybind11/functional.h>
#include <pybind11/pybind11.h>
#include <pybind11/stl.h>
#include <quickfix/Acceptor.h>
#include <quickfix/Application.h>
#include <quickfix/FileStore.h>
#include <quickfix/Initiator.h>
#include <quickfix/Log.h>
#include <quickfix/Parser.h>
#include <quickfix/Responder.h>
#include <quickfix/Session.h>
#include <algorithm>
#include <cstdlib>
#include <ctime>
#include <map>
#include <memory>
#include <set>
#include <sstream>
#include <unordered_map>

namespace py = pybind11;
using Group = std::tuple<int, int, std::vector<py::list>>;      // the counting tag, the first tag, the rows
using Event = std::tuple<std::string, std::string, py::bytes>;  // what, the session, the text
using Said = std::tuple<std::string, py::dict, py::list>;       // the session, fields by their tags, those of groups
using Stored = std::tuple<std::string, int, py::bytes, bool>;   // the session, the number, the text, whether it passes
using Outgoing = std::tuple<int, py::bytes, int, bool>;         // the connection, bytes, last number, whether it ends
using Accepts = std::function<bool(const std::string&, const py::bytes&)>;
struct Kept { std::string what, session, text; };
struct Fresh { std::string session; int number; std::string text; bool passes; };

namespace {

const size_t most_length = 65536, most_of_logon = 16384;  // bytes of a message's body, and of one that logs on
const size_t most_around = 1024;  // bytes around a message's body
const size_t most_unsent = 65536;  // bytes to send with which a connection is read no further
const int most_again = 64;  // messages that are sent again at a time
const size_t most_ahead = 1 << 20;  // bytes of what came ahead of its turn on a connection, with which no more is kept
const char* const unsupported = "3";
const char* const unsupported_text = FIX::BusinessRejectReason_UNSUPPORTED_MESSAGE_TYPE_TEXT;
const int last_tag = 1617;  // of the standard
const size_t most_digits = 9, most_letters = 18;  // of a MsgSeqNum and a HeartBtInt, without zeros before and with them
const size_t size_of_trailer = 7;  // bytes of a sum with its tag and its end
const size_t to_second = 17;  // letters of a time, without what is less than a second
const size_t most_text = 200;  // letters of what a session says that are in the log
const size_t most_shown = 24;  // letters of what a refused Logon says of itself
const int most_wait = 10;  // seconds after which what was asked for is asked for again
const int most_waits = 3;  // seconds in which a Logout is to be answered
const std::string no_answer = "a Logout wasn't answered for " + std::to_string(most_waits) + " s";
const char* const other_logout = "its Logout has another time (52) or other CompIDs (49, 56)";
const char* const after_logout = "more than a message came after a Logout";
const std::string too_low = "MsgSeqNum too low";  // how QuickFIX begins a Logout for one
const std::string remedy =
    "; where yours are lost, the venue's operator resets the session, and you begin at 1 with an empty store";
const std::string no_reset =
    "numbers are kept for the day: log on without ResetSeqNumFlag (ResetOnLogon=N)" + remedy;
const char* const seconds = " from 0 (no heartbeats) to 999999999 seconds";
const char* const wrong_ids = "SenderCompID (49) or TargetCompID (56) isn't this session's";
const char* const wrong_time = "SendingTime (52) isn't the time, or is before OrigSendingTime (122)";
const std::string bad_length = "BodyLength (9) is a number of at most " + std::to_string(most_length);
const char* const not_ended = "what came has no end of a message (10) where it says it has (9)";
const char* const logged_on = "this connection is logged on: a Logon (35=A) is its first message alone; connect again";
const std::set<std::string> taken_types = {"D", "F", "G", "H", "V", "g", "q", "x", "AF"};  // what members may say
const std::set<std::string> venue_types = {"8", "9", "r", "W", "X", "Y", "h", "y", "AE", "j"};  // what it says itself
const std::set<std::string> commands = {"D", "F", "G", "q"};  // of these, those that change orders
const std::set<std::string> passing_types = {"W", "X", "h"};  // what isn't sent again
const std::set<int> of_parties = {447, 448, 452, 523, 802, 803};  // the tags of a row of NoPartyIDs
const FIX::ApplVerID version("9");  // that of FIX.5.0SP2, of which messages over FIXT are
const char* const wanted_version = ", and this session's is 9 (FIX.5.0SP2)";
const int other_version = 18;  // a SessionRejectReason of the standard that QuickFIX hasn't
const char* const reject = "3";
const char* const reject_again = "U3";  // it is sent again, which QuickFIX does with no message of the session
const int cancels_on_disconnect = 8013;  // Y in a Logon: CancelOrdersOnDisconnect

// The value of the first field with this tag, empty where there is none.
std::string value_of(const std::string& text, const char* tag) {
  const std::string begin = std::string("\001") + tag + "=";
  const size_t at = text.find(begin), value = at + begin.size();
  return at == std::string::npos ? "" : text.substr(value, text.find('\001', value) - value);
}
std::string type_of(const std::string& text) { return value_of(text, "35"); }

// Whether a text is a number from 0 with which QuickFIX counts rightly.
bool is_count(const std::string& text) {
  if (text.empty() || text.size() > most_letters) return false;
  if (text.find_first_not_of("0123456789") != std::string::npos) return false;
  return text.size() - std::min(text.find_first_not_of('0'), text.size()) <= most_digits;
}

// A tag of a message at which something is wrong, and the SessionRejectReason for that; 0 where nothing is, and less
// where what stands for a tag is none.
struct Slip { int tag = 0, reason = 0; };
const Slip no_tag{-1, FIX::SessionRejectReason_INVALID_TAG_NUMBER};

// A field of a message: its tag, which is a number of 1 to 9 digits from 1 on, 0 where it has none, as QuickFIX would
// take it for another one; and where its value begins and ends.
struct Field { int tag = 0; size_t value = 0, end = 0; };
Field field_at(const std::string& text, size_t begin) {
  const size_t end = std::min(text.find('\001', begin), text.size());
  const size_t last = std::min(begin + most_digits, end);
  size_t at = begin;
  int tag = 0;
  for (; at < last && text[at] >= '0' && text[at] <= '9'; ++at) tag = 10 * tag + text[at] - '0';
  const bool has_tag = at > begin && at < end && text[at] == '=' && text[begin] != '0';
  return {has_tag ? tag : 0, at + 1, end};
}

// The tag of the data of which a field of this tag says by the standard how long they are, 0 for none.
int data_after(int tag) {
  switch (tag) {
    case 93: return 89;
    case 90: case 95: case 212: case 348: case 350: case 352: case 354: case 356: case 358: case 360: case 362:
    case 364: case 445: case 618: case 621: case 1184: case 1277: case 1280: case 1282: case 1397: case 1401: case 1403:
    case 1468: return tag + 1;
    default: return 0;
  }
}

// Whether a field is one of those that a message has once, around what its length and its sum are of.
bool is_around(const Field& field) { return field.tag >= 8 && field.tag <= 10; }

// Whether each field of a message has a tag, none says how long data are, and there are no more around it than must be.
bool is_plain(const std::string& text) {
  int around = 0;
  for (size_t begin = 0; begin < text.size();) {
    const Field field = field_at(text, begin);
    if (field.tag == 0 || data_after(field.tag)) return false;
    around += is_around(field);
    begin = field.end + 1;
  }
  return around <= 3;
}

// The last field of a message that is what it says, a sum of what is before it.
std::string trailer_of(const std::string& text) {
  unsigned sum = 0;
  for (const unsigned char each : text) sum += each;
  const std::string digits = std::to_string(1000 + sum % 256);
  return "10=" + digits.substr(1) + '\001';
}

// Whether a message begins as each one, and its length and its sum are right.
bool is_whole(const std::string& text) {
  const Field begin = field_at(text, 0), length = field_at(text, begin.end + 1), type = field_at(text, length.end + 1);
  if (begin.tag != 8 || length.tag != 9 || type.tag != 35 || text.size() < type.end + size_of_trailer) return false;
  const std::string said = text.substr(length.value, length.end - length.value);
  const size_t last = text.size() - size_of_trailer;
  if (!is_count(said) || std::stoul(said) != last - length.end - 1) return false;
  return text.substr(last) == trailer_of(text.substr(0, last));
}

// Reads a message: what in it can't be read, as a field has no tag, or is around a message, or data aren't as long as
// the field before them says. What can be is left of it for QuickFIX, which takes each SOH for the end of a field: a
// space is in its place in data. Raises InvalidMessage for a message with a wrong length or sum, where that isn't left
// to QuickFIX.
Slip read(std::string& text) {
  if (is_plain(text)) return {};
  if (!is_whole(text)) throw FIX::InvalidMessage();
  const size_t head = field_at(text, 0).end + 1, last = text.size() - size_of_trailer;
  std::string body;
  Slip slip;
  Field before, field;
  for (size_t begin = field_at(text, head).end + 1; begin < last; begin = field.end + 1, before = field) {
    field = field_at(text, begin);
    if (field.tag == 0 || is_around(field)) {
      const Slip twice{field.tag, FIX::SessionRejectReason_TAG_APPEARS_MORE_THAN_ONCE};
      if (slip.tag == 0) slip = field.tag == 0 ? no_tag : twice;
      continue;
    }
    if (field.tag == data_after(before.tag)) {
      const std::string length = text.substr(before.value, before.end - before.value);
      const size_t end = is_count(length) ? field.value + std::stoul(length) : last;
      if (end < last && text[end] == '\001') {
        std::replace(text.begin() + field.value, text.begin() + end, '\001', ' ');
        field.end = end;
      } else if (slip.tag == 0) {
        slip = {before.tag, FIX::SessionRejectReason_VALUE_IS_INCORRECT};
      }
    }
    body.append(text, begin, field.end + 1 - begin);
  }
  text = text.substr(0, head) + "9=" + std::to_string(body.size()) + '\001' + body;
  text += trailer_of(text);
  return slip;
}

// What QuickFIX says of a slip.
const char* said_of(const Slip& slip) {
  switch (slip.reason) {
    case FIX::SessionRejectReason_REQUIRED_TAG_MISSING: return FIX::SessionRejectReason_REQUIRED_TAG_MISSING_TEXT;
    case FIX::SessionRejectReason_INVALID_TAG_NUMBER: return FIX::SessionRejectReason_INVALID_TAG_NUMBER_TEXT;
    case FIX::SessionRejectReason_TAG_SPECIFIED_WITHOUT_A_VALUE:
      return FIX::SessionRejectReason_TAG_SPECIFIED_WITHOUT_A_VALUE_TEXT;
    case FIX::SessionRejectReason_VALUE_IS_INCORRECT: return FIX::SessionRejectReason_VALUE_IS_INCORRECT_TEXT;
    case FIX::SessionRejectReason_TAG_APPEARS_MORE_THAN_ONCE:
      return FIX::SessionRejectReason_TAG_APPEARS_MORE_THAN_ONCE_TEXT;
    case other_version: return "Invalid or unsupported application version";
    default: return FIX::SessionRejectReason_SENDINGTIME_ACCURACY_PROBLEM_TEXT;
  }
}

// A time in seconds of the epoch, 0 for what is none, which the dictionary finds too.
std::time_t seconds_of(const std::string& time) {
  try {
    return FIX::UtcTimeStampConvertor::convert(time).getTimeT();
  } catch (FIX::FieldConvertError&) {
    return 0;
  }
}

// Whether a message says that it was first sent in a later second than now.
bool is_first_later(const FIX::Header& head) {
  if (!head.isSetField(FIX::FIELD::OrigSendingTime) || !head.isSetField(FIX::FIELD::SendingTime)) return false;
  const std::string first = head.getField(FIX::FIELD::OrigSendingTime), now = head.getField(FIX::FIELD::SendingTime);
  return seconds_of(first) && seconds_of(now) && first.compare(0, to_second, now, 0, to_second) > 0;
}

// What is wrong in the head of a message that QuickFIX would take, or end its session for without a word. By the
// standard a message that is sent again says when it was first, in an earlier second or the same one; in a later one
// where the clock was set back.
Slip slip_of(const FIX::Header& head, bool is_expected, bool is_back) {
  for (const int tag : {FIX::FIELD::SenderCompID, FIX::FIELD::TargetCompID, FIX::FIELD::SendingTime})
    if (!head.isSetField(tag)) return {tag, FIX::SessionRejectReason_REQUIRED_TAG_MISSING};
  if (head.getField(FIX::FIELD::MsgType).empty())
    return {FIX::FIELD::MsgType, FIX::SessionRejectReason_TAG_SPECIFIED_WITHOUT_A_VALUE};
  const bool is_again = head.isSetField(FIX::FIELD::PossDupFlag) && head.getField(FIX::FIELD::PossDupFlag) == "Y";
  if (!is_expected || !is_again || head.getField(FIX::FIELD::MsgType) == "4") return {};
  const int first = FIX::FIELD::OrigSendingTime;
  if (!head.isSetField(first)) return {first, FIX::SessionRejectReason_REQUIRED_TAG_MISSING};
  if (is_back || !is_first_later(head)) return {};
  return {first, FIX::SessionRejectReason_SENDINGTIME_ACCURACY_PROBLEM};
}

// A message under another type.
std::string retyped(const std::string& text, const char* type) {
  FIX::Message message;
  message.setString(text, false);
  message.getHeader().setField(FIX::MsgType(type));
  return message.toString();
}

// A message with all that QuickFIX adds in a session, as text.
std::string addressed(FIX::Message& message, const FIX::SessionID& id, int number) {
  FIX::Header& header = message.getHeader();
  header.setField(FIX::BeginString(id.getBeginString()));
  header.setField(FIX::MsgSeqNum(number));
  header.setField(FIX::SenderCompID(id.getSenderCompID()));
  header.setField(FIX::TargetCompID(id.getTargetCompID()));
  return message.toString();
}

// A store in memory that nothing but the operator's wish begins anew: QuickFIX would at the end of a session's day, and
// for a Logon with ResetSeqNumFlag. Whoever has the engine keeps what is `fresh`, and restores it; the next message is
// none where it has the number `known`. What isn't sent again isn't kept: where `passes` is set, the next message.
class KeptStore : public FIX::MemoryStore {
 public:
  KeptStore(const FIX::SessionID& id, std::vector<Fresh>& fresh) : id_(id), session_(id.toString()), fresh_(fresh) {}
  bool set(int number, const std::string& text) throw(FIX::IOException) {
    const bool is_passing = passes || passing_types.count(type_of(text));
    if (number != known) fresh_.push_back({session_, number, text, is_passing});
    known = 0;
    passes = false;
    return is_passing || keep(number, text);
  }
  // What has numbers from `begin` to `end`. A Heartbeat is in the place of the last one where nothing has that number:
  // QuickFIX sends a gap in place of all that the numbers before it haven't, and of it.
  void get(int begin, int end, std::vector<std::string>& messages) const throw(FIX::IOException) {
    messages.clear();
    const auto first = numbers_.lower_bound(begin);
    if (first != numbers_.end() && *first <= end) FIX::MemoryStore::get(*first, end, messages);
    for (auto& text : messages) if (type_of(text) == reject) text = retyped(text, reject_again);
    if (begin > end || numbers_.count(end)) return;
    FIX::Message nothing;
    nothing.getHeader().setField(FIX::MsgType("0"));
    nothing.getHeader().setField(FIX::SendingTime(FIX::UtcTimeStamp(), 3));
    messages.push_back(addressed(nothing, id_, end));
  }
  void restore(int number, const std::string& text) {
    if (!passing_types.count(type_of(text))) keep(number, text);
    setNextSenderMsgSeqNum(std::max(number + 1, getNextSenderMsgSeqNum()));
  }
  FIX::UtcTimeStamp getCreationTime() const throw(FIX::IOException) { return FIX::UtcTimeStamp(); }
  void reset() throw(FIX::IOException) {
    if (!may_begin_anew) throw FIX::IOException("sequence numbers are kept for the day");
    FIX::MemoryStore::reset();
    numbers_.clear();
  }
  bool may_begin_anew = false, passes = false;
  int known = 0;

 private:
  bool keep(int number, const std::string& text) {
    numbers_.insert(numbers_.end(), number);  // most are the greatest so far
    return FIX::MemoryStore::set(number, text);
  }
  FIX::SessionID id_;
  std::string session_;
  std::set<int> numbers_;  // those under which something is
  std::vector<Fresh>& fresh_;
};

class KeptStores : public FIX::MessageStoreFactory {
 public:
  FIX::MessageStore* create(const FIX::SessionID& id) override {
    return stores[id] = new KeptStore(id, fresh);
  }
  void destroy(FIX::MessageStore* store) override { delete store; }
  std::map<FIX::SessionID, KeptStore*> stores;
  std::vector<Fresh> fresh;
};

// How many messages came and were sent on all connections, and of these how many refused one, and were sent again.
struct Counts { long received = 0, sent = 0, rejects = 0, resends = 0; };

// A ResendRequest that is answered in parts, as others wait meanwhile: from which number on, and the last one. What is
// sent for the first time comes after it.
struct Again { std::string asked, after; int begin = 0, end = 0; bool is_begun = false; };

// What has come on a connection, of which whole messages are taken.
class Reader {
 public:
  void add(const std::string& data) { bytes_ += data; }
  // Takes the next whole message: whether there is one. Raises MessageParseError where its length can't be.
  bool read(std::string& text) {
    is_within = false;
    size_t body = 0;
    int length = 0;
    const size_t begin = bytes_.find("8=");
    if (begin == std::string::npos) return false;
    bytes_.erase(0, begin);
    if (!parser_.extractLength(length, body, bytes_)) return false;
    if (length > static_cast<int>(most_length)) throw FIX::MessageParseError();
    is_within = bytes_.size() < body + length;
    if (is_within) return false;
    const size_t sum = bytes_.find("\00110=", body + length - 1);
    const size_t end = sum == std::string::npos ? sum : bytes_.find('\001', sum + 4);
    if (end == std::string::npos) return false;
    text.assign(bytes_, 0, end + 1);
    bytes_.erase(0, end + 1);
    return true;
  }
  bool is_within = false;  // whether a message has begun whose length is known, and isn't whole

 private:
  FIX::Parser parser_;
  std::string bytes_;
};

// The numbers that were asked for last on a connection: from which on, up to which, and when.
struct Asked { int begin = 0, end = 0; std::time_t time = 0; };

// A connection: what is to be sent on it, and whether it is to be closed then.
struct Wire : FIX::Responder {
  explicit Wire(Counts& counts) : counts(counts) {}
  bool send(const std::string& text) override {
    (again.asked.empty() || is_part ? out : again.after) += text;
    ++counts.sent;
    const std::string type = type_of(text);
    if (value_of(text, "43") == "Y") ++counts.resends;
    else if (type == reject || type == "j") ++counts.rejects;
    return true;
  }
  void disconnect() override { is_closed = true; }
  Counts& counts;
  Reader reader;
  FIX::Session* session = nullptr;
  Asked asked;
  size_t unread = 0;
  std::set<int> early;  // the numbers of messages that came before their turn, and are refused where they come again
  std::map<int, std::string> ahead;  // commands that QuickFIX keeps until their turn, by their numbers
  size_t kept = 0;  // bytes that it was given so to keep: it forgets none over which a gap is filled
  std::string out, logout;  // to be sent; a Logout that came, and is answered after all that came before it
  Again again;
  bool is_part = false;  // whether what is sent now is a part of that
  bool is_closed = false;
  int waits = 0;  // seconds since its session was sent a Logout
};

// The sessions of QuickFIX's acceptor, and of its initiator, without their sockets.
struct Accepting : FIX::Acceptor {
  using FIX::Acceptor::Acceptor;
  void onStart() override {}
  bool onPoll(double) override { return false; }
  void onStop() override {}
};
struct Initiating : FIX::Initiator {
  using FIX::Initiator::Initiator;
  void onStart() override {}
  bool onPoll(double) override { return false; }
  void onStop() override {}
  void doConnect(const FIX::SessionID&, const FIX::Dictionary&) override {}
};

class Engine : public FIX::Application, FIX::LogFactory {
 public:
  // `settings` are QuickFIX's, as text. An acceptor asks `accepts` whether a session takes a Logon with this Password.
  Engine(const std::string& settings, Accepts accepts)
      : text_(settings), settings_(text_), files_(settings_), accepts_(std::move(accepts)) {
    for (auto& id : settings_.getSessions())
      if (FIX::Session::doesSessionExist(id)) throw std::runtime_error("there is the session " + id.toString());
    if (accepts_) acceptor_.reset(new Accepting(*this, stores_, settings_, *this));
    else initiator_.reset(new Initiating(*this, files_, settings_, *this));
    if (acceptor_) share_dictionaries();
  }

  // ---- connections

  // A connection, of an acceptor: who it is follows from its Logon.
  int connect() {
    wires_[++last_].reset(new Wire(counts_));
    return last_;
  }

  // A connection of an initiator's session, which sends its Logon with this password.
  int begin(const std::string& session, const std::string& password) {
    Wire& wire = *wires_.at(connect());
    password_ = password;
    wire.session = initiator_->getSession(ids_.at(session), wire);
    wire.session->next();
    return last_;
  }

  // Takes what has come, and what was left before: whether some is left, until what is to be sent was taken.
  bool feed(int number, const std::string& data) {
    Wire& wire = *wires_.at(number);
    wire.reader.add(data);
    wire.unread += data.size();
    while (!wire.is_closed && wire.out.size() <= most_unsent)
      if (!takes(wire)) return false;
    return !wire.is_closed;
  }

  // Whether a session's message has begun on a connection that isn't whole; it is no longer than one may be.
  bool is_within(int number) { return wires_.at(number)->session && wires_.at(number)->reader.is_within; }

  // Whether a connection has said a Logout, which QuickFIX would answer at once: `log_off` does, once all that was said
  // before is answered.
  bool is_leaving(int number) { return !wires_.at(number)->logout.empty(); }
  void log_off(int number) {
    Wire& wire = *wires_.at(number);
    std::string text;
    text.swap(wire.logout);
    take(wire, text);
  }

  // What is to be sent on each connection, up to which number of its session, and whether to close it then.
  std::vector<Outgoing> outgoing() {
    std::vector<Outgoing> found;
    for (auto& each : wires_) {
      Wire& wire = *each.second;
      if (wire.is_closed) end_again(wire);
      if (wire.out.empty() && !wire.is_closed) continue;
      const int last = wire.session ? wire.session->getExpectedSenderNum() - 1 : 0;
      found.emplace_back(each.first, py::bytes(wire.out), last, wire.is_closed);
      wire.out.clear();
    }
    return found;
  }

  // A connection has ended.
  void lost(int number) {
    auto found = wires_.find(number);
    if (found == wires_.end()) return;
    if (found->second->session) {
      taken_.erase(found->second->session);
      found->second->session->disconnect();
    }
    wires_.erase(found);
  }

  // The session that is on a connection, empty for none.
  std::string session_on(int number) {
    FIX::Session* found = wires_.at(number)->session;
    return found ? found->getSessionID().toString() : "";
  }

  // Heartbeats, and what else a second brings. Without heartbeats QuickFIX would wait for each Logout's answer.
  void tick() {
    latest_ = std::max(latest_, std::time(nullptr));
    for (auto& each : wires_) {
      Wire& wire = *each.second;
      if (!wire.session) continue;
      wire.session->next();
      if (!acceptor_ || wire.is_closed || !wire.session->sentLogout() || ++wire.waits <= most_waits) continue;
      put_end(wire, no_answer);
      wire.is_closed = true;
    }
  }

  // Ends the session on a connection with a Logout, which is answered by another one.
  void log_out(int number, const std::string& why) {
    FIX::Session* found = wires_.at(number)->session;
    if (!found) return;
    put_end(*wires_.at(number), why);
    end_again(*wires_.at(number));
    found->logout(why);
    found->next();
  }

  // ---- sessions

  // What came and was sent so far, of all sessions.
  std::map<std::string, long> counts() {
    const Counts& all = counts_;
    return {{"received", all.received}, {"sent", all.sent}, {"rejects", all.rejects}, {"resends", all.resends}};
  }

  // All that happened to sessions since the last time, but for what they said.
  std::vector<Event> events() {
    std::vector<Kept> taken;
    taken.swap(events_);
    std::vector<Event> found;
    for (auto& each : taken) found.emplace_back(each.what, each.session, py::bytes(each.text));
    return found;
  }

  // All messages that sessions sent since the last time, in their order.
  std::vector<Said> said() {
    std::vector<Said> found;
    found.swap(said_);
    return found;
  }

  // All messages that were stored since the last time, in their order.
  std::vector<Stored> stored() {
    std::vector<Stored> found;
    for (auto& each : stores_.fresh) found.emplace_back(each.session, each.number, py::bytes(each.text), each.passes);
    stores_.fresh.clear();
    return found;
  }

  // Stores a message under the next number and sends it, or leaves it to a later resend: the number. Where that is
  // `known`, it isn't among those that were `stored`, and says that it was sent at this time; one that `passes` isn't
  // sent again. Raises where it couldn't be stored.
  int send(
      const std::string& session, const std::string& type, const py::list& pairs, const std::vector<Group>& groups,
      int known, const std::string& time, bool passes) {
    FIX::Session& to = of(session);
    const int number = to.getExpectedSenderNum();
    FIX::Message message;
    fill(message, type, pairs, groups);
    const auto kept = stores_.stores.find(to.getSessionID());
    if (kept != stores_.stores.end()) {
      kept->second->known = known;
      kept->second->passes = passes;
    }
    time_ = number == known ? time : "";
    if (!to.send(message)) throw std::runtime_error("not stored: " + session);
    return number;
  }

  // Stores a message of a session that is on no connection under this number, by which it may have been sent in an
  // earlier run, at this time; the next number is none below.
  void store(
      const std::string& session, int number, const std::string& type, const py::list& pairs, const std::string& time) {
    if (taken_.count(&of(session))) throw std::runtime_error("on a connection: " + session);
    FIX::Message message;
    fill(message, type, pairs, {});
    message.getHeader().setField(FIX::FIELD::SendingTime, time);
    restore(session, number, addressed(message, ids_.at(session), number));
  }

  int next(const std::string& session) { return of(session).getExpectedSenderNum(); }
  void set_next(const std::string& session, int number) { of(session).setNextSenderMsgSeqNum(number); }
  int expected(const std::string& session) { return of(session).getExpectedTargetNum(); }
  void set_expected(const std::string& session, int number) { of(session).setNextTargetMsgSeqNum(number); }
  bool is_logged_on(const std::string& session) { return of(session).isLoggedOn(); }

  // Both numbers are 1 again, and the store is empty: nothing of it is `stored`, nor the Logout by which QuickFIX ends
  // what was. Raises where a session is on a connection.
  void begin_anew(const std::string& session) {
    if (taken_.count(&of(session))) throw std::runtime_error("on a connection: " + session);
    KeptStore& store = *stores_.stores.at(ids_.at(session));
    store.may_begin_anew = true;
    try {
      of(session).reset();
    } catch (...) {
      store.may_begin_anew = false;
      throw;
    }
    store.may_begin_anew = false;
    auto& fresh = stores_.fresh;
    const auto is_of_it = [&](const Fresh& each) { return each.session == session; };
    fresh.erase(std::remove_if(fresh.begin(), fresh.end(), is_of_it), fresh.end());
  }

  // All messages of the store after this number, in their order.
  std::vector<py::bytes> sent(const std::string& session, int last) {
    std::vector<std::string> found;
    of(session).getStore()->get(last + 1, of(session).getExpectedSenderNum() - 1, found);
    return {found.begin(), found.end()};
  }

  // Puts a message that was sent in an earlier run back into the store.
  void restore(const std::string& session, int number, const std::string& text) {
    latest_ = std::max(latest_, seconds_of(value_of(text, "52")));
    stores_.stores.at(ids_.at(session))->restore(number, text);
  }

  // ---- what QuickFIX calls

  void onCreate(const FIX::SessionID& id) override { ids_[id.toString()] = id; }
  void onLogon(const FIX::SessionID& id) override { put("logon", id.toString(), ""); }
  void onLogout(const FIX::SessionID& id) override { put("logout", id.toString(), ""); }

  // A type of messages that isn't spoken here is no fault of the session: BusinessMessageReject says so. A tag of the
  // standard that isn't is none of the message.
  void toAdmin(FIX::Message& message, const FIX::SessionID& id) override {
    const std::string type = message.getHeader().getField(FIX::FIELD::MsgType);
    if (initiator_ && type == "A") message.setField(FIX::FIELD::Password, password_);
    if (acceptor_ && type == "A" && cancelling_.count(id)) message.setField(cancels_on_disconnect, "Y");
    if (acceptor_ && type == "5") tell_end(message);
    if (type == "2") keep_asked(message);
    ends_.clear();
    if (type != reject || !message.isSetField(FIX::FIELD::SessionRejectReason)) return;
    const int reason = std::stoi(message.getField(FIX::FIELD::SessionRejectReason));
    if (reason == FIX::SessionRejectReason_COMPID_PROBLEM) {
      ends_ = wrong_ids;
      message.setField(FIX::RefTagID(wrong_id(id)));
    }
    if (reason == FIX::SessionRejectReason_SENDINGTIME_ACCURACY_PROBLEM) {
      ends_ = wrong_time;
      message.setField(FIX::RefTagID(late_tag()));
    }
    const int undefined = FIX::SessionRejectReason_TAG_NOT_DEFINED_FOR_THIS_MESSAGE_TYPE;
    if (reason == FIX::SessionRejectReason_INVALID_TAG_NUMBER || reason == undefined) tell_other_tag(message);
    if (reason != FIX::SessionRejectReason_INVALID_MSGTYPE) return;
    message.getHeader().setField(FIX::FIELD::MsgType, "j");
    message.removeField(FIX::FIELD::SessionRejectReason);
    message.setField(FIX::FIELD::BusinessRejectReason, unsupported);
  }

  void toApp(FIX::Message& message, const FIX::SessionID&) throw(FIX::DoNotSend) override {
    FIX::Header& header = message.getHeader();
    if (header.getField(FIX::FIELD::MsgType) == reject_again) header.setField(FIX::MsgType(reject));
    if (!time_.empty()) header.setField(FIX::FIELD::SendingTime, time_);
    time_.clear();
  }
  // A gap in place of messages says that they won't come again.
  void fromAdmin(const FIX::Message& message, const FIX::SessionID& id)
      throw(FIX::FieldNotFound, FIX::IncorrectDataFormat, FIX::IncorrectTagValue, FIX::RejectLogon) override {
    if (!acceptor_) return;
    const std::string type = message.getHeader().getField(FIX::FIELD::MsgType);
    if (type == "4") {
      const int number = FIX::IntConvertor::convert(message.getHeader().getField(FIX::FIELD::MsgSeqNum));
      if (hearing_ && hearing_->early.erase(number)) return;
      check_gap(message, of(id.toString()));
      say_filled(FIX::IntConvertor::convert(message.getField(FIX::FIELD::NewSeqNo)), id);
      say(message, id);
    }
    if (type == "2") check_range(message, of(id.toString()));
  }
  void fromApp(const FIX::Message& message, const FIX::SessionID& id) throw(
      FIX::FieldNotFound, FIX::IncorrectDataFormat, FIX::IncorrectTagValue, FIX::UnsupportedMessageType) override {
    const std::string type = message.getHeader().getField(FIX::FIELD::MsgType);
    if (acceptor_ && type == "j") {  // which came ahead of its turn
      put_refusal(id.toString(), message.toString());
      return;
    }
    if (acceptor_ && !taken_types.count(type)) throw FIX::UnsupportedMessageType();
    if (acceptor_) check_groups(message);
    say(message, id);
  }

 private:
  struct EventLog : FIX::Log {  // messages aren't logged: a Logon has a password
    EventLog(Engine& engine, const std::string& session) : engine(engine), session(session) {}
    void clear() override {}
    void backup() override {}
    void onIncoming(const std::string&) override {}
    void onOutgoing(const std::string&) override {}
    void onEvent(const std::string& text) override { engine.put("event", session, text); }
    Engine& engine;
    std::string session;
  };
  FIX::Log* create() override { return new EventLog(*this, ""); }
  FIX::Log* create(const FIX::SessionID& id) override { return new EventLog(*this, id.toString()); }
  void destroy(FIX::Log* log) override { delete log; }

  // Gives all sessions of a version one dictionary: QuickFIX has made a copy for each, and those of many are in none of
  // the processor's caches as their messages come.
  void share_dictionaries() {
    std::map<std::string, FIX::Session*> firsts;
    for (auto& each : ids_) {
      FIX::Session& session = of(each.first);
      FIX::Session*& first = firsts[each.second.getBeginString().getValue()];
      if (first) session.setDataDictionaryProvider(first->getDataDictionaryProvider());
      else first = &session;
    }
  }

  // Takes the next whole message, or goes on with what is sent again: whether there is one.
  bool takes(Wire& wire) {
    if (!wire.again.asked.empty()) return send_part(wire);
    if (!wire.logout.empty()) {
      wire.is_closed = is_too_much(wire);
      if (wire.is_closed) put_end(wire, after_logout);
      return false;
    }
    std::string text;
    try {
      if (!wire.reader.read(text)) {
        if (is_too_much(wire)) end(wire, not_ended);
        return false;
      }
    } catch (FIX::Exception&) {
      end(wire, bad_length);
      return true;
    }
    wire.unread = 0;
    ++counts_.received;
    const bool is_logout = acceptor_ && wire.session && type_of(text) == "5" && !wire.session->sentLogout();
    if (is_logout) wire.logout = text;
    else take(wire, text);
    return !is_logout;
  }

  // Whether a message is the answer to a session's Logout, and has another time or other ids: QuickFIX would refuse it,
  // and say a Logout again. Raises InvalidMessage where its length or its sum is wrong.
  static bool is_last_word(Wire& wire, const std::string& text) {
    return type_of(text) == "5" && wire.session->sentLogout() && !is_of(*wire.session, text);
  }
  // Ends a connection with its last word, which counts in its turn.
  void leave(Wire& wire, const std::string& text) {
    const std::string number = value_of(text, "34");
    const int expected = wire.session->getExpectedTargetNum();
    if (is_count(number) && FIX::IntConvertor::convert(number) == expected) pass_over(wire, expected);
    put_end(wire, other_logout);
    wire.is_closed = true;
  }

  // Whether more has come on a connection than a message has.
  static bool is_too_much(const Wire& wire) {
    return wire.unread > (wire.session ? most_length + most_around : most_of_logon);
  }

  // Ends a connection, on which no message can follow: says why, and to a session in a Logout.
  void end(Wire& wire, const std::string& why) {
    wire.is_closed = true;
    if (!wire.session) {
      refused(why);
      return;
    }
    put_end(wire, why);
    say_why(wire, why);
  }

  // Says why a connection is ended, whose session is known.
  void put_end(const Wire& wire, const std::string& why) {
    put("event", wire.session->getSessionID().toString(), "a connection is ended: " + why);
  }

  // Takes a message. One with a wrong checksum is passed over, as the standard says.
  void take(Wire& wire, std::string text) {
    heard_ = &text;
    hearing_ = &wire;
    try {
      const Slip slip = acceptor_ ? read(text) : Slip();
      if (!wire.session) wire.is_closed = !begins(wire, text) || !takes_logon(wire, text, slip);
      else if (acceptor_ && type_of(text) == "A") end(wire, logged_on);
      else if (acceptor_ && is_last_word(wire, text)) leave(wire, text);
      else if (acceptor_ && (is_beyond(wire, text) || !is_passed(wire, text, slip))) {}  // which is done with
      else if (acceptor_ && is_long(wire, text)) begin_again(wire, text);
      else hand(wire, text);
    } catch (FIX::InvalidMessage&) {
      wire.is_closed = !wire.session || !wire.session->isLoggedOn();
      if (wire.is_closed && wire.session) put_end(wire, "a message whose length or sum is wrong isn't after a Logon");
    } catch (FIX::Exception& it) {
      wire.is_closed = true;
      if (wire.session) put_end(wire, it.what());
    }
    heard_ = nullptr;
    hearing_ = nullptr;
  }

  // Gives QuickFIX a message. It would count a Logout or a Reject also where messages before it are missing, and then
  // never ask for one of those.
  static void hand(Wire& wire, const std::string& text) {
    FIX::Session& session = *wire.session;
    const int expected = session.getExpectedTargetNum();
    session.setSendRedundantResendRequests(asks_again(wire.asked, text, expected));
    session.next(text, FIX::UtcTimeStamp());
    keep_ahead(wire, text);
    if (session.getExpectedTargetNum() == expected || type_of(text) == "4") return;
    if (FIX::IntConvertor::convert(value_of(text, "34")) != expected) session.setNextTargetMsgSeqNum(expected);
  }

  // Counts what QuickFIX keeps until its turn, and keeps each command of that: it says nothing of one where a gap is
  // filled over that.
  static void keep_ahead(Wire& wire, const std::string& text) {
    const int expected = wire.session->getExpectedTargetNum();
    wire.ahead.erase(wire.ahead.begin(), wire.ahead.lower_bound(expected));
    if (!wire.session->isLoggedOn() || !is_ahead(text, expected)) return;
    const int number = FIX::IntConvertor::convert(value_of(text, "34"));
    wire.kept += text.size() + most_around;
    if (commands.count(type_of(text))) wire.ahead[number] = text;
  }

  // Whether QuickFIX keeps a message until its turn, as it is too early: it takes at once a ResendRequest, a Reject, a
  // Logout, and a SequenceReset that fills no gap.
  static bool is_ahead(const std::string& text, int expected) {
    const std::string number = value_of(text, "34");
    if (!is_count(number) || FIX::IntConvertor::convert(number) <= expected) return false;
    const std::string type = type_of(text);
    return type != "2" && type != "3" && type != "5" && (type != "4" || value_of(text, "123") == "Y");
  }

  // Whether a message is passed over, as it came ahead of its turn after as much as is kept: what is before it is asked
  // for, and it comes again after that.
  bool is_beyond(Wire& wire, const std::string& text) {
    FIX::Session& session = *wire.session;
    const int expected = session.getExpectedTargetNum();
    if (wire.kept <= most_ahead || !is_ahead(text, expected)) return false;
    if (!asks_again(wire.asked, text, expected)) return true;
    put("event", session.getSessionID().toString(), "too much came ahead of its turn, and is asked for again");
    FIX::Message message;
    message.getHeader().setField(FIX::MsgType("2"));
    message.setField(FIX::BeginSeqNo(expected));
    message.setField(FIX::EndSeqNo(0));
    session.send(message);
    return true;
  }

  // Whether messages are asked for again where this one is too early. QuickFIX takes what it has asked for as being on
  // its way until a number after that comes in its turn, and asks for nothing else before: not where a gap was filled
  // up to a message that is missing, nor where what is sent again has a gap itself.
  static bool asks_again(const Asked& asked, const std::string& text, int expected) {
    if (asked.begin == 0) return false;
    const bool is_gap_in_it = expected > asked.begin && value_of(text, "43") == "Y";
    return expected > asked.end || is_gap_in_it || std::time(nullptr) - asked.time > most_wait;
  }

  // What a ResendRequest asks for: all before the message that was too early.
  void keep_asked(const FIX::Message& message) {
    if (!hearing_ || !heard_) return;
    const std::string early = value_of(*heard_, "34");
    const int begin = FIX::IntConvertor::convert(message.getField(FIX::FIELD::BeginSeqNo));
    hearing_->asked = {begin, is_count(early) ? FIX::IntConvertor::convert(early) - 1 : begin, std::time(nullptr)};
  }

  // Which tag of what was heard is at fault, where QuickFIX says only that an id is, or a time.
  int wrong_id(const FIX::SessionID& id) const {
    const bool is_sender = !heard_ || value_of(*heard_, "49") != id.getTargetCompID().getValue();
    return is_sender ? FIX::FIELD::SenderCompID : FIX::FIELD::TargetCompID;
  }
  int late_tag() const {
    const bool is_again = heard_ && value_of(*heard_, "43") == "Y";
    const bool is_before = is_again && value_of(*heard_, "52") < value_of(*heard_, "122");
    return is_before ? FIX::FIELD::OrigSendingTime : FIX::FIELD::SendingTime;
  }

  // Whether a message asks for more messages again than are sent at a time. Raises InvalidMessage where its length or
  // its sum is wrong.
  static bool is_long(const Wire& wire, const std::string& text) {
    if (type_of(text) != "2") return false;
    FIX::Message message;
    message.setString(text, true);
    const std::string first = value_of(text, "7"), last = value_of(text, "16");
    if (!is_count(first) || !is_count(last)) return false;
    const Again all = asked_again(wire, text);
    return all.begin >= 1 && all.end - all.begin >= most_again;
  }

  // What such a message asks for: up to the last one that was sent where its end is 0.
  static Again asked_again(const Wire& wire, const std::string& text) {
    const int begin = FIX::IntConvertor::convert(value_of(text, "7"));
    const int end = FIX::IntConvertor::convert(value_of(text, "16"));
    const int last = wire.session->getExpectedSenderNum() - 1;
    Again found;
    found.asked = text;
    found.begin = begin;
    found.end = end == 0 ? last : std::min(end, last);
    return found;
  }

  // Sends the first part of what is asked for again.
  void begin_again(Wire& wire, const std::string& text) {
    wire.again = asked_again(wire, text);
    const std::string from = std::to_string(wire.again.begin), to = std::to_string(wire.again.end);
    put("event", wire.session->getSessionID().toString(), "Received ResendRequest FROM: " + from + " TO: " + to);
    send_part(wire);
  }

  // Sends the next part of what is sent again, as if it alone was asked for, and now. QuickFIX counts the request once,
  // as its number is none that is expected after that; and where it refuses it, nothing is sent again.
  bool send_part(Wire& wire) {
    Again& again = wire.again;
    FIX::Message part;
    part.setString(again.asked, false);
    const int last = std::min(again.end, again.begin + most_again - 1);
    const long refused = counts_.rejects;
    if (again.is_begun) part.getHeader().setField(FIX::SendingTime(FIX::UtcTimeStamp(), 3));
    part.setField(FIX::BeginSeqNo(again.begin));
    part.setField(FIX::EndSeqNo(last));
    std::string why;
    wire.is_part = is_quiet_ = true;
    try {
      wire.session->next(part.toString(), FIX::UtcTimeStamp());
    } catch (FIX::Exception& it) {
      wire.is_closed = true;
      why = it.what();
    }
    wire.is_part = is_quiet_ = false;
    if (!why.empty()) put_end(wire, why);
    again.begin = last + 1;
    again.is_begun = true;
    if (again.begin > again.end || wire.is_closed || counts_.rejects != refused) end_again(wire);
    return true;
  }

  // Nothing more is sent again: what waited for that is sent.
  static void end_again(Wire& wire) {
    wire.out += wire.again.after;
    wire.again = Again();
  }

  // Whether a message has in its head what each must have, as far as a look says, names no version, and isn't sent
  // again.
  static bool has_head(const std::string& text) {
    if (type_of(text).empty()) return false;
    for (const char* tag : {"\00149=", "\00152=", "\00156="}) if (text.find(tag) == std::string::npos) return false;
    return is_count(value_of(text, "34")) && value_of(text, "43") != "Y" && value_of(text, "1128").empty();
  }

  // Whether a message that isn't the session's own names another version than the session's.
  static bool is_of_other_version(const FIX::Session& session, const std::string& text) {
    const std::string named = value_of(text, "1128");
    if (named.empty() || named == version.getValue() || !session.getSessionID().isFIXT()) return false;
    return !FIX::Message::isAdminMsgType(type_of(text));
  }

  // Whether QuickFIX is to have a message: not one that has no number, which ends the session, nor one that has another
  // fault in its head, or can't be read, which is refused; nor one that QuickFIX would refuse out of its turn. Raises
  // InvalidMessage where its length or its sum is wrong.
  bool is_passed(Wire& wire, const std::string& text, const Slip& unread) {
    if (unread.tag || !has_head(text)) return is_right(wire, text, unread) && !is_venue_s(wire, text);
    const int number = FIX::IntConvertor::convert(value_of(text, "34"));
    if (number != wire.session->getExpectedTargetNum()) return !is_out_of_turn(wire, text, number, false);
    return !is_venue_s(wire, text);
  }

  // Whether a message that is expected is of a type that the venue alone may send: whatever is in it, it is refused as
  // each other type that members may not send, but a refusal, which is logged. Raises as `is_passed`.
  bool is_venue_s(Wire& wire, const std::string& text) {
    const std::string type = type_of(text);
    const int number = FIX::IntConvertor::convert(value_of(text, "34"));
    FIX::Session& session = *wire.session;
    if (!venue_types.count(type) || number != session.getExpectedTargetNum() || !is_of(session, text)) return false;
    pass_over(wire, number);
    const std::string name = session.getSessionID().toString();
    if (type == "j") {
      put_refusal(name, text);
      return true;
    }
    put("event", name, "Message " + std::to_string(number) + " Rejected: " + unsupported_text);
    FIX::Message message;
    message.getHeader().setField(FIX::MsgType("j"));
    message.setField(FIX::FIELD::RefSeqNum, std::to_string(number));
    message.setField(FIX::FIELD::RefMsgType, type);
    message.setField(FIX::FIELD::BusinessRejectReason, unsupported);
    message.setField(FIX::Text(unsupported_text));
    session.send(message);
    return true;
  }

  // Whether a message has the ids of its session, and the time. Raises InvalidMessage as `is_passed`.
  static bool is_of(FIX::Session& session, const std::string& text) {
    FIX::Message message;
    message.setString(text, true);
    const FIX::Header& head = message.getHeader();
    const FIX::SessionID& id = session.getSessionID();
    try {
      FIX::SendingTime time;
      head.getField(time);
      const bool is_now = std::labs(FIX::UtcTimeStamp() - time) <= session.getMaxLatency();
      const bool is_sender = head.getField(FIX::FIELD::SenderCompID) == id.getTargetCompID().getValue();
      return is_now && is_sender && head.getField(FIX::FIELD::TargetCompID) == id.getSenderCompID().getValue();
    } catch (FIX::Exception&) {
      return false;
    }
  }

  // Says what a client has refused; the venue says nothing to it.
  void put_refusal(const std::string& session, const std::string& text) {
    put("event", session, "Received BusinessMessageReject of " + shown(text, "45") + ": " + shown(text, "58"));
  }

  // What a message says under a tag, as it may be in the log.
  static std::string shown(const std::string& text, const std::string& tag) {
    std::string found = value_of(text, tag.c_str()).substr(0, most_text);
    for (char& letter : found) if (letter < ' ' || letter > '~') letter = '?';
    return found;
  }

  // Has QuickFIX expect what is after a message, as after a gap in its place.
  static void pass_over(Wire& wire, int number) {
    wire.early.insert(number);
    hand(wire, gap_of(wire, number, number + 1));
    wire.early.erase(number);
  }

  // A gap that a session is given in place of its own messages.
  static std::string gap_of(const Wire& wire, int number, int end) {
    const FIX::SessionID& id = wire.session->getSessionID();
    FIX::Message gap;
    gap.getHeader().setField(FIX::MsgType("4"));
    gap.getHeader().setField(FIX::SendingTime(FIX::UtcTimeStamp(), 3));
    gap.setField(FIX::GapFillFlag(true));
    gap.setField(FIX::NewSeqNo(end));
    const FIX::SessionID theirs(id.getBeginString(), id.getTargetCompID().getValue(), id.getSenderCompID().getValue());
    return addressed(gap, theirs, number);
  }

  // Whether a message whose head may have a fault has none, and all of it can be read.
  bool is_right(Wire& wire, const std::string& text, const Slip& unread) {
    FIX::Message message;
    message.setString(text, true);
    FIX::Header& head = message.getHeader();
    const int tag = FIX::FIELD::MsgSeqNum;
    const std::string number = head.isSetField(tag) ? head.getField(tag) : "";
    if (!is_count(number)) {
      const std::string why = number.empty() ? "MsgSeqNum (34) is missing" : "MsgSeqNum (34) can't be " + number;
      put("event", wire.session->getSessionID().toString(), why);
      wire.is_closed = !say_why(wire, why);
      return false;
    }
    const int place = FIX::IntConvertor::convert(number);
    const bool is_expected = place == wire.session->getExpectedTargetNum();
    const bool is_back = is_set_back(*wire.session, head);
    Slip slip = unread.tag ? unread : slip_of(head, is_expected, is_back);
    if (!slip.tag && is_of_other_version(*wire.session, text)) slip = {FIX::FIELD::ApplVerID, other_version};
    if (!is_expected && is_out_of_turn(wire, text, place, slip.tag)) return false;
    const std::string type = type_of(text);
    const bool is_checked = type != "2" && type != "4" && type != "5";  // by QuickFIX, which would end the session
    if (is_back && is_checked && place < wire.session->getExpectedTargetNum()) return false;
    if (slip.tag) refuse(*wire.session, head, slip, is_expected);
    return !slip.tag;
  }

  // Whether a message that is sent again was first sent at a later time, which a clock may have shown that was set back
  // since: the machine's, or a client's that went with it.
  bool is_set_back(FIX::Session& session, const FIX::Header& head) const {
    const bool is_again = head.isSetField(FIX::FIELD::PossDupFlag) && head.getField(FIX::FIELD::PossDupFlag) == "Y";
    if (latest_ <= std::time(nullptr) || !is_again || !is_first_later(head)) return false;
    return seconds_of(head.getField(FIX::FIELD::OrigSendingTime)) <= latest_ + session.getMaxLatency();
  }

  // Whether a message of a member that is refused has come out of its turn, as it comes again or came before: of one
  // that is too early, what is before it is asked for, and one that is too late and isn't sent again ends the session.
  bool is_out_of_turn(Wire& wire, const std::string& text, int number, bool has_slip) {
    if (FIX::Message::isAdminMsgType(type_of(text)) || (!has_slip && is_known(*wire.session, text))) return false;
    if (number > wire.session->getExpectedTargetNum()) ask_before(wire, number);
    else if (value_of(text, "43") != "Y") hand(wire, gap_of(wire, number, number + 1));
    return true;
  }

  // Whether QuickFIX finds nothing wrong in a message by its dictionaries.
  static bool is_known(FIX::Session& session, const std::string& text) {
    const FIX::DataDictionaryProvider& all = session.getDataDictionaryProvider();
    const FIX::DataDictionary& own = all.getSessionDataDictionary(session.getSessionID().getBeginString());
    const FIX::DataDictionary& app = session.getSessionID().isFIXT() ? all.getApplicationDataDictionary(version) : own;
    try {
      FIX::DataDictionary::validate(FIX::Message(text, own, app, true), &own, &app);
    } catch (FIX::InvalidMessage&) {  // which is passed over
    } catch (FIX::Exception&) {
      return false;
    }
    return true;
  }

  // Has QuickFIX ask for what is before a message that is too early: it has a gap of no length in its place, so that
  // the message is expected where it comes again.
  void ask_before(Wire& wire, int number) {
    wire.early.insert(number);
    hand(wire, gap_of(wire, number, number));
    wire.asked.end = std::max(wire.asked.end, number);
  }

  // Refuses a message by a Reject, after which the next one is expected.
  void refuse(FIX::Session& session, const FIX::Header& head, const Slip& slip, bool is_expected) {
    const std::string number = head.getField(FIX::FIELD::MsgSeqNum), type = head.getField(FIX::FIELD::MsgType);
    const char* const text = said_of(slip);
    put("event", session.getSessionID().toString(), "Message " + number + " Rejected: " + text);
    FIX::Message message;
    message.getHeader().setField(FIX::MsgType(reject));
    message.setField(FIX::FIELD::RefSeqNum, number);
    if (!type.empty()) message.setField(FIX::FIELD::RefMsgType, type);
    if (slip.tag > 0) message.setField(FIX::RefTagID(slip.tag));
    message.setField(FIX::SessionRejectReason(slip.reason));
    message.setField(FIX::Text(text));
    if (is_expected && type != "4") session.setNextTargetMsgSeqNum(FIX::IntConvertor::convert(number) + 1);
    session.send(message);
    ends_.clear();
  }

  // Takes a Logon that has the right password: whether the connection goes on. Where QuickFIX would end it without a
  // word, a Logout says why, but to a Logon whose length or sum is wrong.
  bool takes_logon(Wire& wire, const std::string& text, const Slip& unread) {
    const std::string slip = unread.tag ? unread_in_logon(unread) : slip_of_logon(text);
    if (!slip.empty()) {
      put("event", wire.session->getSessionID().toString(), slip);
      return say_why(wire, slip);
    }
    try {
      wire.session->next(text, FIX::UtcTimeStamp());
    } catch (FIX::Exception&) {
    }
    if (!wire.out.empty()) return !wire.is_closed;
    const std::string why = fault_of(*wire.session, text);
    put_end(wire, why.empty() ? "its Logon has a wrong length or sum" : why);
    return !why.empty() && say_why(wire, why);
  }

  static std::string unread_in_logon(const Slip& slip) {
    if (slip.tag < 0) return "a tag is no number of at most 9 digits";
    return std::string(said_of(slip)) + ": " + std::to_string(slip.tag);
  }

  // What is wrong with a Logon that QuickFIX would take, or would say nothing of; empty for nothing, and where its
  // length or its sum is wrong.
  static std::string slip_of_logon(const std::string& text) {
    FIX::Message message;
    try {
      message.setString(text, true);
    } catch (FIX::InvalidMessage&) {
      return "";
    }
    const FIX::Header& head = message.getHeader();
    for (const int tag : {FIX::FIELD::MsgSeqNum, FIX::FIELD::SendingTime})
      if (!head.isSetField(tag)) return named(FIX::RequiredTagMissing(tag), tag);
    const int number = FIX::FIELD::MsgSeqNum, beats = FIX::FIELD::HeartBtInt;
    const std::string first = head.getField(number), often = message.isSetField(beats) ? message.getField(beats) : "";
    if (!first.empty() && !is_count(first)) return named(FIX::IncorrectDataFormat(number, first), number);
    const bool is_whole = !often.empty() && often.find_first_not_of("-0123456789") == std::string::npos;
    if (is_whole && !is_count(often)) return "HeartBtInt (108) is " + often + ", and may be" + seconds;
    const std::string named = head.getField(FIX::FIELD::BeginString) == "FIXT.1.1" ? shown(text, "1137") : "";
    const bool is_other = !named.empty() && named != version.getValue();
    return is_other ? "DefaultApplVerID (1137) is " + named + wanted_version : "";
  }

  // Sends a Logout that says why the connection ends: false.
  static bool say_why(Wire& wire, const std::string& why) {
    FIX::Message message;
    message.getHeader().setField(FIX::FIELD::MsgType, "5");
    message.setField(FIX::FIELD::Text, why);
    wire.session->setResponder(&wire);
    FIX::Session::sendToTarget(message, wire.session->getSessionID());
    return false;
  }

  // Why QuickFIX takes no message of a session: its time, or what its dictionary finds.
  static std::string fault_of(FIX::Session& session, const std::string& text) {
    FIX::Message header;
    header.setString(text, false);
    try {
      FIX::SendingTime time;
      header.getHeader().getField(time);
      const FIX::UtcTimeStamp now;
      if (std::labs(now - time) > session.getMaxLatency()) return off_time(now, session.getMaxLatency());
    } catch (FIX::Exception&) {  // which the dictionary finds too
    }
    const FIX::BeginString begin(session.getSessionID().getBeginString());
    const FIX::DataDictionary& known = session.getDataDictionaryProvider().getSessionDataDictionary(begin);
    try {
      known.validate(FIX::Message(text, known));
    } catch (FIX::InvalidTagNumber& it) { return named(it, it.field);
    } catch (FIX::RequiredTagMissing& it) { return named(it, it.field);
    } catch (FIX::NoTagValue& it) { return named(it, it.field);
    } catch (FIX::IncorrectTagValue& it) { return named(it, it.field);
    } catch (FIX::IncorrectDataFormat& it) { return named(it, it.field);
    } catch (FIX::TagOutOfOrder& it) { return named(it, it.field);
    } catch (FIX::RepeatedTag& it) { return named(it, it.field);
    } catch (FIX::InvalidMessage&) { return "";
    } catch (FIX::Exception& it) { return it.what();
    }
    return "this Logon can't be taken";
  }
  static std::string off_time(const FIX::UtcTimeStamp& now, int seconds) {
    return "SendingTime (52) is more than " + std::to_string(seconds) + " s from the venue's, which is " +
        FIX::UtcTimeStampConvertor::convert(now, 0) + " UTC: set the clock";
  }
  static std::string named(const FIX::Exception& fault, int field) {
    return fault.what() + std::string(": ") + std::to_string(field);
  }

  // Whether a first message is a Logon with the password of a session that isn't on. No other reaches its session: that
  // would reset or answer before it asked for a password.
  bool begins(Wire& wire, const std::string& text) {
    FIX::Message message;
    message.setString(text, false);
    FIX::Session* found = FIX::Session::lookupSession(text, true);
    if (!found) return refused("no session is " + sides_of(text));
    const std::string name = found->getSessionID().toString();
    const FIX::Header& head = message.getHeader();
    const std::string type = head.getField(FIX::FIELD::MsgType);
    if (type != "A" || !message.isSetField(FIX::FIELD::Password)) return refused("no Logon with a Password", name);
    const py::bytes password(message.getField(FIX::FIELD::Password));
    if (!accepts_(name, password)) return refused("a wrong Password, or it can't be taken yet", name);
    if (taken_.count(found)) return refused("the session is on another connection", name);
    if (is_set(message, FIX::FIELD::ResetSeqNumFlag)) {
      wire.out = reset_refusal(found->getSessionID());
      return refused("ResetSeqNumFlag, and sequence numbers are kept for the day", name);
    }
    const bool cancels = is_set(message, cancels_on_disconnect);
    cancelling_.erase(found->getSessionID());
    if (cancels) cancelling_.insert(found->getSessionID());
    const int time = FIX::FIELD::SendingTime;
    put("begins", name, (cancels ? "Y" : "N") + (head.isSetField(time) ? head.getField(time) : ""));
    found->logon();  // after a Logout of the venue too
    wire.session = acceptor_->getSession(text, wire);
    if (wire.session) taken_.insert(wire.session);
    return wire.session;
  }
  // The Logout for a Logon that would reset the numbers. Whoever sends that has reset its own and expects 1; nothing of
  // it is kept, so the session goes on as it was.
  static std::string reset_refusal(const FIX::SessionID& id) {
    FIX::Message message;
    message.getHeader().setField(FIX::MsgType("5"));
    message.getHeader().setField(FIX::SendingTime(FIX::UtcTimeStamp(), 3));
    message.setField(FIX::Text(no_reset));
    return addressed(message, id, 1);
  }

  static bool is_set(const FIX::Message& message, int tag) {
    return message.isSetField(tag) && message.getField(tag) == "Y";
  }
  // Between whom a first message is, and in which version, without what isn't plain.
  static std::string sides_of(const std::string& text) {
    const std::string begin = text.substr(2, text.find('\001') - 2);
    const std::string sender = value_of(text, "49"), target = value_of(text, "56"), from = " from ", to = " to ";
    std::string found;
    for (const std::string& part : {begin, from, sender, to, target})
      for (const char letter : part.substr(0, most_shown)) found += letter < ' ' || letter > '~' ? '?' : letter;
    return found;
  }
  bool refused(const std::string& why, const std::string& session = "") {
    put("event", session, "a Logon is refused: " + why);
    return false;
  }

  // Has a Logout say why it follows a Reject, and what to do about a number that is too low.
  void tell_end(FIX::Message& message) const {
    const std::string text = message.isSetField(FIX::FIELD::Text) ? message.getField(FIX::FIELD::Text) : ends_;
    const bool is_low = text.compare(0, too_low.size(), too_low) == 0;
    if (!text.empty()) message.setField(FIX::Text(is_low ? text + remedy : text));
  }

  // Says of a Reject for a tag of the standard that it isn't defined for that message; of one of a group, its count.
  void tell_other_tag(FIX::Message& message) const {
    const int tag = message.isSetField(FIX::FIELD::RefTagID) ? std::stoi(message.getField(FIX::FIELD::RefTagID)) : 0;
    if (tag < 1 || tag > last_tag) return;
    const int group = FIX::FIELD::NoPartyIDs;
    if (of_parties.count(tag) && heard_ && !value_of(*heard_, "453").empty()) message.setField(FIX::RefTagID(group));
    message.setField(FIX::SessionRejectReason(FIX::SessionRejectReason_TAG_NOT_DEFINED_FOR_THIS_MESSAGE_TYPE));
    message.setField(FIX::Text(FIX::SessionRejectReason_TAG_NOT_DEFINED_FOR_THIS_MESSAGE_TYPE_TEXT));
  }

  // Raises where a ResendRequest asks for numbers under which nothing was sent, or for none.
  static void check_range(const FIX::Message& message, FIX::Session& session) {
    const int begin = FIX::IntConvertor::convert(message.getField(FIX::FIELD::BeginSeqNo));
    const int end = FIX::IntConvertor::convert(message.getField(FIX::FIELD::EndSeqNo));
    if (begin < 1 || begin >= session.getExpectedSenderNum()) throw FIX::IncorrectTagValue(FIX::FIELD::BeginSeqNo);
    if (end != 0 && end < begin) throw FIX::IncorrectTagValue(FIX::FIELD::EndSeqNo);
  }

  // Raises where a SequenceReset would lower the number that is expected, or a gap has no length.
  static void check_gap(const FIX::Message& message, FIX::Session& session) {
    const std::string end = message.getField(FIX::FIELD::NewSeqNo);
    const int expected = session.getExpectedTargetNum();
    const int least = expected + is_set(message, FIX::FIELD::GapFillFlag);
    if (!is_count(end) || FIX::IntConvertor::convert(end) < least) throw FIX::IncorrectTagValue(FIX::FIELD::NewSeqNo);
  }

  // Raises where a group has no row: by the standard a count is positive.
  static void check_groups(const FIX::Message& message) {
    for (const int tag : {FIX::FIELD::NoMDEntryTypes, FIX::FIELD::NoRelatedSym})
      if (message.isSetField(tag) && FIX::IntConvertor::convert(message.getField(tag)) < 1)
        throw FIX::IncorrectTagValue(tag);
  }

  // A session fills a gap up to this number: of each command that came ahead of its turn it is said that it won't come
  // again, by a GapFillFlag, which it can't have.
  void say_filled(int end, const FIX::SessionID& id) {
    if (!hearing_) return;
    auto& ahead = hearing_->ahead;
    const auto last = ahead.lower_bound(end);
    for (auto each = ahead.lower_bound(of(id.toString()).getExpectedTargetNum()); each != last; ++each) {
      FIX::Message message;
      message.setString(each->second, false);
      message.setField(FIX::GapFillFlag(true));
      say(message, id);
    }
    ahead.erase(ahead.begin(), last);
  }

  // A session says this: its fields by their tags, the last one of each, and those of groups in their order.
  void say(const FIX::Message& message, const FIX::SessionID& id) {
    py::dict fields;
    py::list rows;
    for (auto& field : message.getHeader()) fields[py::int_(field.getTag())] = text_of(field);
    for (auto& field : message) fields[py::int_(field.getTag())] = text_of(field);
    add_rows(message, fields, rows);
    said_.emplace_back(id.toString(), std::move(fields), std::move(rows));
  }
  static void add_rows(const FIX::FieldMap& of, py::dict& fields, py::list& rows) {
    for (auto group = of.g_begin(); group != of.g_end(); ++group) {
      for (auto* row : group->second) {
        for (auto& field : *row) {
          fields[py::int_(field.getTag())] = text_of(field);
          rows.append(py::make_tuple(field.getTag(), text_of(field)));
        }
        add_rows(*row, fields, rows);
      }
    }
  }
  static py::object text_of(const FIX::FieldBase& field) {
    const std::string& text = field.getString();
    return py::reinterpret_steal<py::object>(PyUnicode_DecodeLatin1(text.data(), text.size(), nullptr));
  }
  // Sets the type of a message, its fields and its groups.
  static void fill(
      FIX::Message& message, const std::string& type, const py::list& pairs, const std::vector<Group>& groups) {
    message.getHeader().setField(FIX::FIELD::MsgType, type);
    set_fields(message, pairs);
    if (message.isSetField(FIX::FIELD::PossResend)) {
      message.getHeader().setField(message.getFieldRef(FIX::FIELD::PossResend));
      message.removeField(FIX::FIELD::PossResend);
    }
    for (auto& group : groups) {
      for (auto& row : std::get<2>(group)) {
        FIX::Group entry(std::get<0>(group), std::get<1>(group), order_of(row).data());
        set_fields(entry, row);
        message.addGroup(entry);
      }
    }
  }
  // The tags of a row of a group in their order, in which they are sent, as QuickFIX takes it: 0 ends it.
  static std::vector<int> order_of(const py::list& row) {
    std::vector<int> order;
    for (const py::handle each : row) order.push_back(py::reinterpret_borrow<py::tuple>(each)[0].cast<int>());
    order.push_back(0);
    return order;
  }
  // Sets fields to texts of Python, those of small tags first: QuickFIX keeps them so, and would move all others.
  static void set_fields(FIX::FieldMap& fields, const py::list& pairs) {
    std::vector<std::pair<int, py::handle>> sorted;
    sorted.reserve(pairs.size());
    for (const py::handle each : pairs) {
      const auto pair = py::reinterpret_borrow<py::tuple>(each);
      sorted.emplace_back(pair[0].cast<int>(), pair[1]);
    }
    const auto is_before = [](auto& one, auto& other) { return one.first < other.first; };
    std::stable_sort(sorted.begin(), sorted.end(), is_before);
    for (auto& each : sorted) fields.setField(each.first, latin(each.second));
  }
  // The bytes in Latin-1 of a text of Python.
  static std::string latin(py::handle text) {
    if (PyUnicode_Check(text.ptr()) && PyUnicode_IS_COMPACT_ASCII(text.ptr())) {
      const auto* begin = reinterpret_cast<const char*>(PyUnicode_1BYTE_DATA(text.ptr()));
      return std::string(begin, PyUnicode_GET_LENGTH(text.ptr()));
    }
    PyObject* bytes = PyUnicode_AsEncodedString(text.ptr(), "latin-1", "replace");
    if (!bytes) throw py::error_already_set();
    return py::reinterpret_steal<py::bytes>(bytes);
  }

  void put(const char* what, const std::string& session, const std::string& text) {
    if (!is_quiet_) events_.push_back({what, session, text});
  }
  FIX::Session& of(const std::string& session) {
    FIX::Session*& found = sessions_[session];
    if (!found) found = FIX::Session::lookupSession(ids_.at(session));  // one of its name in a process
    if (!found) throw std::runtime_error("no session: " + session);
    return *found;
  }

  std::istringstream text_;
  FIX::SessionSettings settings_;
  KeptStores stores_;
  FIX::FileStoreFactory files_;  // an initiator's
  Accepts accepts_;
  std::string password_, time_;  // of a Logon, and of what is sent now
  std::time_t latest_ = 0;  // the latest time that the clock has shown, now where it wasn't set back
  std::string ends_;  // what a Logout says that follows a Reject
  const std::string* heard_ = nullptr;  // what is taken now
  Wire* hearing_ = nullptr;  // where that has come
  bool is_quiet_ = false;  // while a part is sent again
  std::vector<Kept> events_;
  std::vector<Said> said_;
  std::map<std::string, FIX::SessionID> ids_;
  std::unordered_map<std::string, FIX::Session*> sessions_;
  std::set<FIX::Session*> taken_;  // those that are on a connection
  std::set<FIX::SessionID> cancelling_;  // those whose orders end with their connection
  Counts counts_;
  int last_ = 0;
  std::map<int, std::unique_ptr<Wire>> wires_;
  std::unique_ptr<Accepting> acceptor_;
  std::unique_ptr<Initiating> initiator_;
};

}  // namespace

PYBIND11_MODULE(_quickfix, module) {
  py::class_<Engine>(module, "Engine")
      .def(py::init<const std::string&, Accepts>(), py::arg("settings"), py::arg("accepts") = Accepts())
      .def("connect", &Engine::connect)
      .def("begin", &Engine::begin)
      .def("feed", &Engine::feed)
      .def("is_within", &Engine::is_within)
      .def("is_leaving", &Engine::is_leaving)
      .def("log_off", &Engine::log_off)
      .def("outgoing", &Engine::outgoing)
      .def("lost", &Engine::lost)
      .def("session_on", &Engine::session_on)
      .def("tick", &Engine::tick)
      .def("log_out", &Engine::log_out)
      .def("counts", &Engine::counts)
      .def("events", &Engine::events)
      .def("said", &Engine::said)
      .def("stored", &Engine::stored)
      .def("send", &Engine::send, py::arg("session"), py::arg("type"), py::arg("pairs"),
           py::arg("groups") = std::vector<Group>(), py::arg("known") = 0, py::arg("time") = "",
           py::arg("passes") = false)
      .def("store", &Engine::store)
      .def("next", &Engine::next)
      .def("set_next", &Engine::set_next)
      .def("expected", &Engine::expected)
      .def("set_expected", &Engine::set_expected)
      .def("is_logged_on", &Engine::is_logged_on)
      .def("begin_anew", &Engine::begin_anew)
      .def("sent", &Engine::sent, py::arg("session"), py::arg("last") = 0)
      .def("restore", &Engine::restore);
}
