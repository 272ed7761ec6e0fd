%% bench:main(): the workloads of one desk as exchanges between Erlang's processes, as lines "erlang WORKLOAD PER_SECOND" of
%% the emulator's processor time, which statistics(runtime) gives in milliseconds. One scheduler: erl +S 1:1 +sbwt none.
-module(bench).
-export([main/0]).

-define(GROUP, 10000).

main() ->
    logger:set_primary_config(level, none),
    {P, M} = spawn_opt(fun() -> [measure(W) || W <- workloads()] end, [monitor, {min_heap_size, 100000}]),
    receive {'DOWN', M, process, P, _} -> halt() end.

%% Each workload answers {Units, Milliseconds}.
measure({Name, Run}) ->
    erlang:garbage_collect(),
    {Units, Spent} = Run(),
    io:format("erlang ~s ~w~n", [Name, Units * 1000 div max(Spent, 1)]).

timed(Units, Calls) ->
    {Start, _} = statistics(runtime),
    Calls(),
    {End, _} = statistics(runtime),
    {Units, End - Start}.

%% The sum over so many runs, each in a process of its own.
repeated(Times, Run) ->
    All = [alone(Run) || _ <- lists:seq(1, Times)],
    {lists:sum([U || {U, _} <- All]), lists:sum([S || {_, S} <- All])}.

alone(Run) ->
    Me = self(),
    {P, M} = spawn_monitor(fun() -> Me ! {result, self(), Run()} end),
    Result = receive {result, P, R} -> R end,
    receive {'DOWN', M, process, P, _} -> Result end.

workloads() ->
    [{"ping_pong", fun() -> ping_pong(150000) end},
     {"one_way", fun() -> alone(fun() -> one_way(400000) end) end},
     {"send", fun() -> send(200000) end},
     {"receive", fun() -> alone(fun() -> take(200000) end) end},
     {"past_0", fun() -> alone(fun() -> past(0, 300000) end) end},
     {"past_100", fun() -> alone(fun() -> past(100, 150000) end) end},
     {"past_1000", fun() -> alone(fun() -> past(1000, 20000) end) end},
     {"past_10000", fun() -> alone(fun() -> past(10000, 1500) end) end},
     {"all_to_all", fun() -> repeated(2, fun() -> all_to_all(64, 40) end) end},
     {"spawn_exit", fun() -> spawn_exit(100000) end},
     {"spawn_monitor_exit", fun() -> alone(fun() -> spawn_monitor_exit(50000) end) end},
     {"link_unlink", fun() -> alone(fun() -> link_unlink(100000) end) end},
     {"monitor_demonitor", fun() -> alone(fun() -> monitor_demonitor(100000) end) end},
     {"chain_of_links", fun() -> repeated(5, fun chain_of_links/0) end},
     {"chain_of_monitors", fun() -> repeated(5, fun chain_of_monitors/0) end},
     {"links_end", fun() -> repeated(4, fun links_end/0) end},
     {"hub_is_killed", fun() -> repeated(4, fun hub_is_killed/0) end},
     {"downs_come", fun() -> repeated(4, fun downs_come/0) end}].

idle() -> receive stop -> ok end.

ping_pong(N) ->
    P = spawn(fun answer/0),
    Result = timed(N, fun() -> ping(P, N) end),
    P ! stop,
    Result.
answer() ->
    receive
        {user, From, 1, Num} -> From ! {user, self(), 2, Num}, answer();
        stop -> ok
    end.
ping(_, 0) -> ok;
ping(P, N) -> P ! {user, self(), 1, N}, receive {user, P, 2, _} -> ping(P, N - 1) end.

blast(_, _, 0) -> ok;
blast(To, From, N) -> To ! {user, From, 1, N}, blast(To, From, N - 1).
drain(0) -> ok;
drain(N) -> receive {user, _, 1, _} -> drain(N - 1) end.

one_way(N) ->
    Me = self(),
    timed(N, fun() -> spawn(fun() -> blast(Me, self(), N) end), drain(N) end).
send(N) ->
    P = spawn(fun idle/0),
    Result = timed(N, fun() -> blast(P, self(), N) end),
    exit(P, kill),
    Result.
take(N) ->
    blast(self(), self(), N),
    timed(N, fun() -> drain(N) end).

past(Items, N) ->
    [self() ! {user, self(), 9, I} || I <- lists:seq(1, Items)],
    timed(N, fun() -> to_self(self(), N) end).
to_self(_, 0) -> ok;
to_self(Me, N) -> Me ! {user, Me, 1, N}, receive {user, _, 1, _} -> to_self(Me, N - 1) end.

all_to_all(Count, Each) ->
    Me = self(),
    All = [spawn(fun() ->
               receive {others, Others} -> [blast(P, self(), Each) || P <- Others, P =/= self()] end,
               drain((Count - 1) * Each),
               Me ! done
           end) || _ <- lists:seq(1, Count)],
    timed(Count * (Count - 1) * Each, fun() ->
        [P ! {others, All} || P <- All],
        [receive done -> ok end || _ <- All]
    end).

until_gone(Base) ->
    case erlang:system_info(process_count) =< Base of
        true -> ok;
        false -> erlang:yield(), until_gone(Base)
    end.

spawn_exit(N) ->
    Base = erlang:system_info(process_count),
    timed(N, fun() -> births(N), until_gone(Base) end).
births(0) -> ok;
births(N) -> spawn(fun() -> ok end), births(N - 1).

spawn_monitor_exit(N) -> timed(N, fun() -> watched_births(N) end).
watched_births(0) -> ok;
watched_births(N) ->
    {P, M} = spawn_monitor(fun() -> ok end),
    receive {'DOWN', M, process, P, _} -> watched_births(N - 1) end.

link_unlink(N) ->
    P = spawn(fun idle/0),
    Result = timed(N, fun() -> links(P, N) end),
    P ! stop,
    Result.
links(_, 0) -> ok;
links(P, N) -> link(P), unlink(P), links(P, N - 1).

monitor_demonitor(N) ->
    P = spawn(fun idle/0),
    Result = timed(N, fun() -> watches(P, N) end),
    P ! stop,
    Result.
watches(_, 0) -> ok;
watches(P, N) -> demonitor(monitor(process, P)), watches(P, N - 1).

%% A chain of processes, each made by Start(Previous); the first is killed, and all is over when the last has ended.
chain(Start) ->
    Me = self(),
    First = spawn(fun idle/0),
    Next = fun(_, Before) ->
        P = spawn(fun() -> Start(Before, fun() -> Me ! ready end) end),
        receive ready -> P end
    end,
    Last = lists:foldl(Next, First, lists:seq(2, ?GROUP)),
    M = monitor(process, Last),
    erlang:garbage_collect(),
    timed(?GROUP, fun() -> exit(First, kill), receive {'DOWN', M, process, _, killed} -> ok end end).

chain_of_links() ->
    chain(fun(Before, Ready) -> link(Before), Ready(), idle() end).
chain_of_monitors() ->
    chain(fun(Before, Ready) ->
        M = monitor(process, Before),
        Ready(),
        receive {'DOWN', M, process, _, Reason} -> exit(Reason) end
    end).

links_end() ->
    process_flag(trap_exit, true),
    All = [spawn_link(fun() -> receive stop -> exit({other, 7}) end end) || _ <- lists:seq(1, ?GROUP)],
    timed(?GROUP, fun() -> [P ! stop || P <- All], [receive {'EXIT', _, {other, 7}} -> ok end || _ <- All] end).

hub_is_killed() ->
    Base = erlang:system_info(process_count),
    Me = self(),
    Hub = spawn(fun() -> [spawn_link(fun idle/0) || _ <- lists:seq(1, ?GROUP)], Me ! ready, idle() end),
    receive ready -> ok end,
    timed(?GROUP, fun() -> exit(Hub, kill), until_gone(Base) end).

downs_come() ->
    All = [element(1, spawn_monitor(fun() -> receive stop -> exit({other, 7}) end end)) || _ <- lists:seq(1, ?GROUP)],
    timed(?GROUP, fun() -> [P ! stop || P <- All], [receive {'DOWN', _, _, _, {other, 7}} -> ok end || _ <- All] end).
