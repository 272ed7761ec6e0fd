%% timers:main(): timers of Erlang beside 1,000,000 pending ones, as lines "erlang-timers WORKLOAD PER_SECOND" of the
%% emulator's processor time, the best of three rounds. The workloads are those of pt_bench_timers but for `fire`, since
%% Erlang fires by its own clock. All are due in more than an hour. One scheduler: erl +S 1:1 +sbwt none.
-module(timers).
-export([main/0]).

-define(COUNT, 1000000).
-define(HOUR, 3600000).

main() ->
    logger:set_primary_config(level, none),
    {P, M} = spawn_opt(fun rounds/0, [monitor, {min_heap_size, 10000000}]),
    receive {'DOWN', M, process, P, _} -> halt() end.

rounds() ->
    Rounds = [round() || _ <- lists:seq(1, 3)],
    [io:format("erlang-timers ~s ~w~n", [Name, lists:max([maps:get(Name, R) || R <- Rounds])])
        || Name <- ["start", "again", "cancel"]].

round() ->
    erlang:garbage_collect(),
    rand:seed(exsss, 1),
    Times = [?HOUR + rand:uniform(?HOUR) || _ <- lists:seq(1, ?COUNT)],
    {Started, Start} = timed(fun() -> [start(T) || T <- Times] end),
    {Others, Again} = timed(fun() -> [begin _ = erlang:cancel_timer(R), start(T) end || {R, T} <- lists:zip(Started, Times)] end),
    {_, Cancel} = timed(fun() -> [erlang:cancel_timer(R) || R <- Others] end),
    #{"start" => Start, "again" => Again, "cancel" => Cancel}.

start(Time) -> erlang:send_after(Time, self(), {user, self(), 1, 2}).

timed(Calls) ->
    {Before, _} = statistics(runtime),
    Result = Calls(),
    {After, _} = statistics(runtime),
    {Result, ?COUNT * 1000 div max(After - Before, 1)}.
