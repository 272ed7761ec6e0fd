#!/usr/bin/env escript
%%! +P 200000
%% Plays scenarios on OTP's supervisor, and prints what was seen.
%%
%%     supervisors.escript FILE SLOWNESS SIDE_BY_SIDE
%%
%% FILE has the text of scenarios, of which this program reads all but the lines 'saw' (run.sh has the form). It prints the
%% lines 'scenario', 'step' and 'saw' of each. A unit of the scenario's time takes SLOWNESS milliseconds. If a scenario has a
%% short span of restarts, its time 0 is the beginning of a second of the clock: OTP's supervisor counts whole seconds.
%%
%% What is seen comes from a trace of the supervisor and its children: what they send, and when they exit, by the stamps of
%% the trace. While the things of a step are done the supervisor is suspended. So all of them have come to it before it
%% handles the first.
-mode(compile).
-export([init/1, start_child/4, kid/2]).

-record(play, {
    slowness :: pos_integer(),          % milliseconds of a unit of time
    began :: integer(),                 % the clock, in milliseconds, at the time 0
    boss :: pid(),                      % the supervisor
    kids = #{} :: map(),                % the processes of the children, by their numbers
    calls = #{} :: map(),               % of each reference of a call its number
    steps = [] :: list()                % of each step its time, and the stamp at which it began; the last one in front
}).

main([File, Slowness, SideBySide]) ->
    logger:set_primary_config(level, none),
    {ok, Bytes} = file:read_file(File),
    Lines = [string:lexemes(Line, " ") || Line <- string:lexemes(binary_to_list(Bytes), "\n")],
    Scenarios = scenarios(Lines),
    LongestFirst = lists:sort(fun(A, B) -> duration(A) >= duration(B) end, Scenarios),
    Texts = play_all(LongestFirst, list_to_integer(Slowness), list_to_integer(SideBySide)),
    lists:foreach(fun(Scenario) -> io:put_chars(maps:get(number(Scenario), Texts)) end, Scenarios).

%% The lines of each scenario, without what was seen.
scenarios([]) -> [];
scenarios([["scenario" | _] = First | Lines]) ->
    {Own, Rest} = lists:splitwith(fun([Word | _]) -> Word =/= "scenario" end, Lines),
    [[First | [Line || [Word | _] = Line <- Own, Word =/= "saw"]] | scenarios(Rest)].

number([["scenario", Number | _] | _]) -> Number.

duration(Scenario) ->
    ["end", Time] = lists:last(Scenario),
    list_to_integer(Time).

%% Plays all scenarios, so many side by side, and returns the text of each by its number.
play_all(Scenarios, Slowness, SideBySide) ->
    {Now, Later} = lists:split(min(SideBySide, length(Scenarios)), Scenarios),
    lists:foreach(fun(Scenario) -> begin_one(Scenario, Slowness) end, Now),
    gather(length(Now), Later, Slowness, #{}).

begin_one(Scenario, Slowness) ->
    Self = self(),
    spawn_link(fun() -> Self ! {text, number(Scenario), play(Scenario, Slowness)} end).

gather(0, [], _Slowness, Texts) -> Texts;
gather(Running, Later, Slowness, Texts) ->
    receive
        {text, Number, Text} when Later =:= [] ->
            gather(Running - 1, [], Slowness, Texts#{Number => Text});
        {text, Number, Text} ->
            begin_one(hd(Later), Slowness),
            gather(Running, tl(Later), Slowness, Texts#{Number => Text})
    end.

%% Plays a scenario, and returns its text. This process is the parent of the supervisor, and calls it.
play([["scenario", Number, Strategy, Most, Span] | Lines], Slowness) ->
    process_flag(trap_exit, true),
    {Children, [["step", "0"] | Steps]} = lists:splitwith(fun([Word | _]) -> Word =:= "child" end, Lines),
    Flags = #{strategy => list_to_atom(Strategy),
              intensity => list_to_integer(Most),
              period => list_to_integer(Span) * Slowness div 1000},
    Specs = [spec(Words, Slowness) || ["child" | Words] <- Children],
    Began = beginning(list_to_integer(Span)),
    First = {"0", stamp()},
    Boss = start_boss({self(), Flags, Specs}),
    Play = #play{slowness = Slowness, began = Began, boss = Boss, steps = [First]},
    text(Number, play_steps(Steps, Play)).

%% Starts the supervisor. It has exited again if one of its first children did not start.
start_boss(Arguments) ->
    _ = supervisor:start_link(?MODULE, Arguments),
    receive {boss, Boss} -> Boss end.

%% Waits until a scenario with this span may begin, and returns when that is. Those with a long span begin at any time, so
%% that not all do the same at once.
beginning(Span) ->
    Began = case Span > 1000 of
        true -> erlang:monotonic_time(millisecond) + rand:uniform(1000);
        false -> 1000 * (erlang:monotonic_time(second) + 1)
    end,
    wait_until(Began),
    Began.

wait_until(Time) ->
    timer:sleep(max(0, Time - erlang:monotonic_time(millisecond))).

%% A stamp like those of the trace.
stamp() -> {erlang:monotonic_time(), erlang:unique_integer([monotonic])}.

%% A child's specification. Its number tells its starts from those of another one with the same id.
spec([Number, Id, Restart, Shutdown | Kind], Slowness) ->
    #{id => list_to_integer(Id),
      start => {?MODULE, start_child, [self(), Number, list_to_integer(Id), kind(Kind, Slowness)]},
      restart => list_to_atom(Restart),
      shutdown => shutdown(Shutdown, Slowness)}.

shutdown("infinity", _Slowness) -> infinity;
shutdown("brutal_kill", _Slowness) -> brutal_kill;
shutdown(Time, Slowness) -> list_to_integer(Time) * Slowness.

kind(["plain"], _Slowness) -> plain;
kind(["deaf"], _Slowness) -> deaf;
kind(["slow", Time, Reason], Slowness) -> {slow, list_to_integer(Time) * Slowness, reason(Reason)};
kind(["failing", After, Times], _Slowness) -> {failing, list_to_integer(After), list_to_integer(Times)}.

reason("other:" ++ Number) -> {other, list_to_integer(Number)};
reason(Word) -> list_to_atom(Word).

%% The supervisor's own process calls this before it starts a child. From here on it is traced, and its children with it.
init({Player, Flags, Specs}) ->
    Player ! {boss, self()},
    erlang:trace(self(), true, [procs, send, set_on_spawn, strict_monotonic_timestamp, {tracer, Player}]),
    {ok, {Flags, Specs}}.

%% The supervisor's own process starts a child by this. If the child traps exits, it does so before this returns.
start_child(Player, Number, Id, Kind) ->
    Starts = 1 + starts(Number),
    put({starts, Number}, Starts),
    case Kind of
        {failing, After, Times} when Starts > After, Starts =< After + Times ->
            Player ! {failed, Id},
            {error, failed};
        _ ->
            Boss = self(),
            Kid = spawn_link(?MODULE, kid, [Boss, Kind]),
            Player ! {started, Id, Kid},
            receive {ready, Kid} -> {ok, Kid} end
    end.

starts(Number) ->
    case get({starts, Number}) of
        undefined -> 0;
        Starts -> Starts
    end.

%% A child.
kid(Boss, Kind) ->
    process_flag(trap_exit, traps(Kind)),
    Boss ! {ready, self()},
    live(Kind).

traps({slow, _Time, _Reason}) -> true;
traps(deaf) -> true;
traps(_Kind) -> false.

live(Kind) ->
    receive
        {'EXIT', _From, _Reason} -> heed(Kind);
        Told -> obey(Told)
    end,
    live(Kind).

%% What a child does that got an exit signal, and traps exits.
heed(deaf) -> ok;
heed({slow, Time, Reason}) ->
    Timer = erlang:start_timer(Time, self(), over),
    take_leave(Timer, Reason).

take_leave(Timer, Reason) ->
    receive
        {timeout, Timer, over} -> exit(Reason);
        {do, _, _} = Told -> obey(Told)
    end,
    take_leave(Timer, Reason).

%% Does what the player says.
obey({do, _Player, {exit, Reason}}) -> exit(Reason);
obey({do, _Player, {bid, Boss, Reason}}) -> exit(Boss, Reason);
obey({do, Player, {unlink, Boss}}) ->
    unlink(Boss),
    Player ! {unlinked, self()}.

%% Plays the steps, and returns what is known in the end.
play_steps([["end", Time]], Play) ->
    wait_for(Time, Play),
    timer:sleep(10 * Play#play.slowness),
    Play;
play_steps([["step", Time] | Lines], Play) ->
    wait_for(Time, Play),
    {Deeds, Rest} = lists:splitwith(fun([Word | _]) -> Word =:= "do" end, Lines),
    Begun = (know_kids(Play))#play{steps = [{Time, stamp()} | Play#play.steps]},
    play_steps(Rest, suspended(Begun, fun() -> lists:foldl(fun perform/2, Begun, Deeds) end)).

wait_for(Time, #play{began = Began, slowness = Slowness}) ->
    wait_until(Began + list_to_integer(Time) * Slowness).

%% Takes in which children were started since it was last looked.
know_kids(#play{kids = Kids} = Play) ->
    receive
        {started, _Id, Kid} -> know_kids(Play#play{kids = Kids#{integer_to_list(map_size(Kids)) => Kid}})
    after 0 -> Play
    end.

%% Does this while the supervisor is suspended, if it has not exited.
suspended(#play{boss = Boss}, Do) ->
    try erlang:suspend_process(Boss) of
        true ->
            Done = Do(),
            erlang:resume_process(Boss),
            Done
    catch
        error:badarg -> Do()
    end.

%% Does one thing. What it sends has come to its receivers then.
perform(["do", "stop", Reason], Play) ->
    exit(Play#play.boss, reason(Reason)),
    Play;
perform(["do", "call", Number | Words], #play{boss = Boss, calls = Calls} = Play) ->
    Reference = make_ref(),
    Boss ! {'$gen_call', {self(), Reference}, request(Words, Play)},
    Play#play{calls = Calls#{Reference => Number}};
perform(["do", Word, Number | Words], #play{boss = Boss, kids = Kids} = Play) ->
    case Kids of
        #{Number := Kid} -> perform(list_to_atom(Word), Kid, [reason(Reason) || Reason <- Words], Boss);
        #{} -> ok
    end,
    Play.

perform(exit, Kid, [Reason], Boss) ->
    await_exit(Kid, Boss, fun() -> Kid ! {do, self(), {exit, Reason}} end);
perform(signal, Kid, [Reason], Boss) ->
    await_exit(Kid, Boss, fun() -> exit(Kid, Reason) end);
perform(unlink, Kid, [], Boss) ->
    Kid ! {do, self(), {unlink, Boss}},
    receive {unlinked, Kid} -> ok after 1000 -> ok end;
perform(bid, Kid, [Reason], Boss) ->
    Before = queue_length(Boss),
    Kid ! {do, self(), {bid, Boss, Reason}},
    await_news(Boss, Before, 100).

request(["terminate", Id], _Play) -> {terminate_child, list_to_integer(Id)};
request(["restart", Id], _Play) -> {restart_child, list_to_integer(Id)};
request(["delete", Id], _Play) -> {delete_child, list_to_integer(Id)};
request(["start" | Words], Play) -> {start_child, spec(Words, Play#play.slowness)};
request(["which"], _Play) -> which_children;
request(["count"], _Play) -> count_children.

%% Makes a child exit, and waits until the supervisor has news of it, if it is linked with it.
await_exit(Kid, Boss, Do) ->
    Before = queue_length(Boss),
    IsLinked = is_linked(Kid, Boss),
    Monitor = monitor(process, Kid),
    Do(),
    receive {'DOWN', Monitor, process, Kid, _Reason} -> ok after 5000 -> ok end,
    IsLinked andalso await_news(Boss, Before, 100).

is_linked(Kid, Boss) ->
    case process_info(Kid, links) of
        {links, Links} -> lists:member(Boss, Links);
        undefined -> false
    end.

await_news(_Boss, _Before, 0) -> ok;
await_news(Boss, Before, Times) ->
    case queue_length(Boss) of
        Length when Length =:= undefined; Length > Before -> ok;
        _Same ->
            timer:sleep(1),
            await_news(Boss, Before, Times - 1)
    end.

queue_length(Boss) ->
    case process_info(Boss, message_queue_len) of
        {message_queue_len, Length} -> Length;
        undefined -> undefined
    end.

%% The text of what was seen.
text(Number, #play{boss = Boss} = Play) ->
    Delivered = erlang:trace_delivered(all),
    receive {trace_delivered, all, Delivered} -> ok end,
    Seen = lists:keysort(1, trace()),
    [exit(Left, kill) || Left <- [Boss | maps:values(Play#play.kids)]],
    Started = [Kid || {_, {sent, {started, _, Kid}}} <- Seen],
    Numbers = maps:from_list(lists:zip(Started, lists:seq(0, length(Started) - 1))),
    Steps = [{Stamp, {step, Time}} || {Time, Stamp} <- Play#play.steps],
    Ids = maps:from_list([{Kid, Id} || {_, {sent, {started, Id, Kid}}} <- Seen]),
    Lines = [line(What, Play, Numbers, Ids) || {_, What} <- lists:keysort(1, Steps ++ Seen)],
    ["scenario ", Number, "\n", Lines].

%% What the trace has, each with its stamp.
trace() ->
    receive
        {trace_ts, _From, send, Message, _To, Stamp} -> [{Stamp, {sent, Message}} | trace()];
        {trace_ts, From, exit, Reason, Stamp} -> [{Stamp, {exited, From, Reason}} | trace()];
        Other when element(1, Other) =:= trace_ts -> trace()
    after 0 -> []
    end.

%% The line of one thing that was seen, or nothing.
line({step, Time}, _Play, _Numbers, _Ids) ->
    ["step ", Time, "\n"];
line({sent, {started, Id, Kid}}, _Play, Numbers, _Ids) ->
    ["saw started ", words([Id, maps:get(Kid, Numbers)]), "\n"];
line({sent, {failed, Id}}, _Play, _Numbers, _Ids) ->
    ["saw failed ", words([Id]), "\n"];
line({sent, {Reference, Reply}}, #play{calls = Calls}, Numbers, _Ids) when is_map_key(Reference, Calls) ->
    ["saw answer ", maps:get(Reference, Calls), " ", answer(Reply, Numbers), "\n"];
line({sent, _Other}, _Play, _Numbers, _Ids) ->
    [];
line({exited, Boss, Reason}, #play{boss = Boss}, _Numbers, _Ids) ->
    ["saw boss ", reason_text(Reason), "\n"];
line({exited, Kid, Reason}, _Play, Numbers, Ids) ->
    ["saw ended ", words([maps:get(Kid, Ids), maps:get(Kid, Numbers)]), " ", reason_text(Reason), "\n"].

words(Terms) -> lists:join(" ", [word(Term) || Term <- Terms]).

word(Number) when is_integer(Number) -> integer_to_list(Number);
word(Atom) when is_atom(Atom) -> atom_to_list(Atom);
word(Term) -> io_lib:format("~0p", [Term]).

reason_text({other, Number}) -> ["other:", integer_to_list(Number)];
reason_text({shutdown, {failed_to_start_child, _Id, _Fault}}) -> "shutdown";
reason_text(Reason) -> word(Reason).

%% An answer. OTP's which_children has the last child in front, so the list is turned round.
answer(ok, _Numbers) -> "ok";
answer({ok, Kid}, Numbers) -> words([ok, maps:get(Kid, Numbers)]);
answer({error, {already_started, Kid}}, Numbers) -> words([already_started, maps:get(Kid, Numbers)]);
answer({error, {Fault, _Child}}, _Numbers) -> word(Fault);
answer({error, Fault}, _Numbers) -> word(Fault);
answer([{specs, Specs}, {active, Active} | _], _Numbers) -> words([count, Specs, Active]);
answer(Children, Numbers) when is_list(Children) ->
    ["which", [[" ", word(Id), ":", state(Kid, Numbers)] || {Id, Kid, _, _} <- lists:reverse(Children)]].

state(undefined, _Numbers) -> "none";
state(restarting, _Numbers) -> "restarting";
state(Kid, Numbers) -> word(maps:get(Kid, Numbers)).
