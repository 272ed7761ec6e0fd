%% threads:main([Shape, Schedulers]): the shapes of pt_bench_threads among Erlang's processes, with as many messages for each
%% scheduler as there for each desk, as a line "erlang SHAPE_SCHEDULERS PER_SECOND" by the wall:
%% erl +S N:N -noshell -run threads main own N. Which process runs on which scheduler is the emulator's matter.
-module(threads).
-export([main/1]).

main([Shape, Count]) ->
    Schedulers = list_to_integer(Count),
    {Taken, Spent} = alone(fun() -> run(Shape, Schedulers, messages(Shape)) end),
    io:format("erlang ~s_~w ~w~n", [Shape, Schedulers, Taken * 1000000000 div max(Spent, 1)]),
    halt().

messages("all") -> 409600;
messages("ring") -> 200000;
messages(_) -> 400000.

%% The run, in a process of its own.
alone(Run) ->
    {P, M} = spawn_opt(fun() -> exit({done, Run()}) end, [monitor, {min_heap_size, 100000}]),
    receive {'DOWN', M, process, P, {done, Result}} -> Result end.

%% How many messages were taken, and the nanoseconds from the word to begin until all processes are done.
run("own", Schedulers, Messages) ->
    Pairs = 64 * Schedulers,
    Each = Messages div 128,
    Seconds = [spawn(fun() -> answer(Each) end) || _ <- lists:seq(1, Pairs)],
    Firsts = [spawn(fun() -> wait(), ask(P, Each) end) || P <- Seconds],
    {2 * Pairs * Each, timed(Firsts)};
run("all", Schedulers, Messages) ->
    Count = 16 * Schedulers,
    Each = Messages div 16,
    All = [spawn(fun() -> receive {others, Others} -> spread_first(Others, Each) end end) || _ <- lists:seq(1, Count)],
    lists:foldl(fun(P, Behind) -> P ! {others, turned(Behind, All)}, Behind + 1 end, 0, All),
    {Count * Each, timed(All)};
run("ring", Schedulers, Messages) ->
    Each = Messages * Schedulers div 1000,
    All = [spawn(fun() -> receive {next, P} -> wait(), P ! {user, self(), 1, 7}, hand_on(P, Each - 1, Each) end end)
           || _ <- lists:seq(1, 1000)],
    [P ! {next, Next} || {P, Next} <- lists:zip(All, turned(1, All))],
    {1000 * Each, timed(All)};
run("way", _, Messages) ->
    Second = spawn(fun() -> wait(), drain(Messages) end),
    First = spawn(fun() -> wait(), blast(Second, Messages) end),
    {Messages, timed([Second, First])}.

timed(All) ->
    Ends = [monitor(process, P) || P <- All],
    Start = erlang:monotonic_time(nanosecond),
    [P ! go || P <- All],
    [receive {'DOWN', M, process, _, _} -> ok end || M <- Ends],
    erlang:monotonic_time(nanosecond) - Start.

wait() -> receive go -> ok end.

turned(Behind, All) ->
    {Front, Back} = lists:split(Behind, All),
    Back ++ Front.

ask(_, 0) -> ok;
ask(P, N) -> P ! {user, self(), 1, 7}, receive {user, P, _, _} -> ask(P, N - 1) end.
answer(0) -> ok;
answer(N) -> receive {user, From, _, _} -> From ! {user, self(), 1, 7}, answer(N - 1) end.

blast(_, 0) -> ok;
blast(P, N) -> P ! {user, self(), 1, 7}, blast(P, N - 1).
drain(0) -> ok;
drain(N) -> receive {user, _, 1, _} -> drain(N - 1) end.

hand_on(_, _, 0) -> ok;
hand_on(P, Left, Awaited) ->
    receive {user, _, 1, _} when Left > 0 -> P ! {user, self(), 1, 7}, hand_on(P, Left - 1, Awaited - 1);
            {user, _, 1, _} -> hand_on(P, 0, Awaited - 1)
    end.

%% So many messages to all of them in turn, and what has come is taken after every 16.
spread_first(Others, Each) -> wait(), spread(Others, Others, Each, 0, Each).
spread(_, _, 0, _, Awaited) -> drain(Awaited);
spread(All, Rest, Left, 16, Awaited) -> spread(All, Rest, Left, 0, Awaited - taken(0));
spread(All, [], Left, Sent, Awaited) -> spread(All, All, Left, Sent, Awaited);
spread(All, [P | Rest], Left, Sent, Awaited) -> P ! {user, self(), 1, 7}, spread(All, Rest, Left - 1, Sent + 1, Awaited).
taken(N) -> receive {user, _, 1, _} -> taken(N + 1) after 0 -> N end.
