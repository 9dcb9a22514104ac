//! A router that is told two records by a cache, and an index.
use rpkirtr::{Cache, CacheSettings, Config, Current, End, Error, Index, Link, Manifest, OriginState, Report, Roa, Route, Router, Version, Vrp};

const ANSWER: [u8; 84] = [
    1, 3, 1, 2, 0, 0, 0, 8, // Cache Response of session 258
    1, 4, 0, 0, 0, 0, 0, 20, 1, 8, 16, 0, 10, 0, 0, 0, 0, 0, 0xfb, 0xf0, // 10.0.0.0/8-16 AS64496
    1, 6, 0, 0, 0, 0, 0, 32, 1, 32, 48, 0, 0x20, 1, 0xd, 0xb8, 0, 0, 0, 0, 0, 0, 0, 0, 0, 0, 0, 0, 0, 0, 0xfb, 0xf1,
    1, 7, 1, 2, 0, 0, 0, 24, 0, 0, 0, 7, 0, 0, 0xe, 0x10, 0, 0, 2, 0x58, 0, 0, 0x1c, 0x20, // End of Data of serial 7
];

fn vrp(prefix: &str, max_len: u8, asn: u32) -> Vrp {
    Vrp { prefix: prefix.parse().unwrap(), max_len, asn }
}

fn route(prefix: &str, origin: Option<u32>) -> Route {
    Route { prefix: prefix.parse().unwrap(), origin }
}

/// A router that committed the answer at second 101.
fn committed_router() -> Router {
    let mut router = Router::new().unwrap();
    router.connect(100);
    router.pull(&mut [0; 16]);
    router.receive(&ANSWER, 101);
    router
}

#[test]
fn a_router_commits_an_answer() {
    let (ten, db8) = (vrp("10.0.0.0/8", 16, 64496), vrp("2001:db8::/32", 48, 64497));
    let mut router = Router::new().unwrap();
    assert_eq!(router.link(), Link::Closed);
    assert_eq!(router.ask(), Err(Error::NotLinked));
    assert_eq!(router.wake_at(), None);
    router.connect(100);
    let mut room = [0; 16];
    let pulled = router.pull(&mut room);
    assert_eq!(room[..pulled], [1, 2, 0, 0, 0, 0, 0, 8]);
    assert_eq!(router.ask(), Err(Error::Busy));
    assert_eq!(router.receive(&ANSWER[..60], 101), 60);
    assert_eq!((router.link(), router.len()), (Link::Answering, 0));
    assert_eq!(router.receive(&ANSWER[60..], 101), 24);
    let committed = router.committed().unwrap();
    assert_eq!((committed.version, committed.session, committed.serial, committed.moment), (Version::V1, 258, 7, 101));
    assert_eq!(router.records().collect::<Vec<_>>(), [ten, db8]);
    assert_eq!(router.next_query_at(), Some(101 + 3600));
    assert_eq!(router.wake_at(), Some(101 + 3600));
    assert_eq!(router.state(&route("10.1.0.0/16", Some(64496))), Ok(OriginState::Valid));
    assert_eq!(router.state(&route("10.1.0.0/17", Some(64496))), Ok(OriginState::Invalid));
    assert_eq!(router.state(&route("192.0.2.0/24", None)), Ok(OriginState::NotFound));
    assert_eq!(router.state(&route("10.0.0.1/8", None)), Err(Error::BadRoute));
    assert_eq!(router.covering(&route("2001:db8:1::/48", None)).unwrap(), [db8]);
}

#[test]
fn a_router_keeps_its_own_intervals() {
    let mut router = Router::new().unwrap();
    assert_eq!(router.config(), Config::default());
    let own = Config { refresh: 60, keeps_refresh: true, expire: 601, ..Config::default() };
    router.configure(&own).unwrap();
    assert_eq!(router.configure(&Config { refresh: 0, ..own }), Err(Error::BadTiming(1)));
    assert_eq!(router.configure(&Config { expire: 600, ..own }), Err(Error::BadTiming(2)));
    assert_eq!(router.config(), own);
    router.connect(100);
    router.pull(&mut [0; 16]);
    router.receive(&ANSWER, 101);
    let committed = router.committed().unwrap();
    assert_eq!((committed.refresh, committed.retry, committed.expire), (60, 600, 7200));
}

#[test]
fn a_router_holds_the_most_records_of_its_configuration() {
    for (most, count) in [(1, 0), (2, 2)] {
        let mut router = Router::new().unwrap();
        router.configure(&Config { most, ..Config::default() }).unwrap();
        router.connect(100);
        router.pull(&mut [0; 16]);
        router.receive(&ANSWER, 101);
        assert_eq!(router.len(), count);
        assert_eq!(router.link(), if most == 1 { Link::Ended(End::TooMany) } else { Link::Idle });
    }
}

#[test]
fn a_router_tells_what_its_connection_carried() {
    let mut router = committed_router();
    let told = router.traffic();
    assert_eq!((told.received.bytes, told.sent.bytes), (84, 8));
    assert_eq!(told.received.pdus, [0, 0, 0, 1, 1, 0, 1, 1, 0, 0, 0]);
    assert_eq!(told.sent.pdus, [0, 0, 1, 0, 0, 0, 0, 0, 0, 0, 0]);
    assert_eq!((told.received.report, told.sent.report), (None, None));
    router.connect(102);
    assert_eq!((router.traffic().received.bytes, router.traffic().sent.bytes), (0, 0));
    router.pull(&mut [0; 16]);
    router.receive(&[1, 10, 0, 1, 0, 0, 0, 20, 0, 0, 0, 0, 0, 0, 0, 4, b'b', b'u', b's', b'y'], 103);
    assert_eq!(router.traffic().received.report, Some(Report { code: 1, text: "busy".to_string() }));
}

#[test]
fn changes_are_told_until_they_are_taken() {
    let mut router = committed_router();
    for _ in 0..2 {
        let changes = router.changes().unwrap();
        assert_eq!((changes.withdraws(), changes.announces()), (0, 2));
    }
    router.changes().unwrap().take();
    assert_eq!(router.changes().unwrap().announced().count(), 0);
    router.connection_closed(200);
    assert_eq!(router.wake_at(), Some(101 + 7200 + 1));
    router.tick(101 + 7200);
    assert_eq!(router.len(), 2);
    router.tick(101 + 7201);
    let changes = router.changes().unwrap();
    assert_eq!(changes.withdrawn().map(|vrp| vrp.asn).collect::<Vec<_>>(), [64496, 64497]);
}

#[test]
fn an_index_of_a_router_stays() {
    let mut router = committed_router();
    let index = router.index().unwrap();
    router.tick(101 + 7201);
    assert_eq!((router.len(), index.len()), (0, 2));
    drop(router);
    assert_eq!(index.state(&route("10.1.0.0/16", Some(64496))), Ok(OriginState::Valid));
}

#[test]
fn lists_make_one_index() {
    let (ten, db8) = (vrp("10.0.0.0/8", 16, 64496), vrp("2001:db8::/32", 48, 64497));
    assert_eq!(Index::of_lists(&[&[ten], &[], &[db8, ten]]).unwrap().len(), 2);
    assert_eq!(Index::of_lists(&[]).unwrap().len(), 0);
    let fault = Index::of_lists(&[&[ten], &[db8, vrp("10.0.0.0/8", 33, 1)]]).unwrap_err();
    assert_eq!(fault, Error::BadRecordOf { list: 1, record: 1 });
}

#[test]
fn a_roa_is_decoded() {
    let payload = [
        0x30, 0x22, 0x02, 0x03, 0x00, 0xfb, 0xf0, 0x30, 0x1b, 0x30, 0x19, 0x04, 0x02, 0x00, 0x01, 0x30, 0x13, 0x30, 0x07, 0x03, 0x02, 0x00, 0x0a,
        0x02, 0x01, 0x10, 0x30, 0x08, 0x03, 0x03, 0x06, 0x0a, 0x40, 0x02, 0x01, 0x0b,
    ];
    let roa = Roa::decode(&payload).unwrap();
    assert_eq!(roa.asn(), 64496);
    assert_eq!(roa.vrps(), [vrp("10.0.0.0/8", 16, 64496), vrp("10.64.0.0/10", 11, 64496)]);
    assert_eq!(Roa::decode(&payload[..30]).unwrap_err(), Error::BadPayload { number: 1, offset: 0 });
}

#[test]
fn a_manifest_is_decoded() {
    let mut payload = vec![0x30, 0x5e, 0x02, 0x01, 0x01];
    payload.extend(b"\x18\x0f20250101000000Z\x18\x0f20250102000000Z");
    payload.extend(b"\x06\x09\x60\x86\x48\x01\x65\x03\x04\x02\x01\x30\x2c\x30\x2a\x16\x05a.crl\x03\x21\x00");
    payload.extend(0..32);
    let manifest = Manifest::decode(&payload).unwrap();
    assert_eq!((manifest.number(), manifest.times(), manifest.len()), (vec![1], (1_735_689_600, 1_735_776_000), 1));
    let files = manifest.files();
    assert_eq!((files[0].name.as_str(), files[0].digest.to_vec()), ("a.crl", (0..32).collect::<Vec<u8>>()));
    payload[31] = b'1';
    assert_eq!(Manifest::decode(&payload).unwrap_err(), Error::BadPayload { number: 14, offset: 22 });
}

const SETTINGS: CacheSettings =
    CacheSettings { session: 258, session0: 772, start: 7, keep: 16, refresh: 3600, retry: 600, expire: 7200 };

#[test]
fn a_cache_serves_a_router() {
    let (ten, db8) = (vrp("10.0.0.0/8", 16, 64496), vrp("2001:db8::/32", 48, 64497));
    let mut cache = Cache::new(&SETTINGS).unwrap();
    assert_eq!(cache.current(), None);
    assert_eq!(cache.publish(&[ten, vrp("10.0.0.0/8", 33, 1)]), Err(Error::BadRecord(1)));
    assert_eq!(cache.publish(&[db8, ten, ten]), Ok(true));
    assert_eq!(cache.publish(&[ten, db8]), Ok(false));
    assert_eq!(cache.current(), Some(Current { serial: 7, count: 2 }));
    assert_eq!((cache.open(), cache.open()), (Ok(0), Ok(1)));
    assert_eq!((cache.close(0), cache.close(0)), (Ok(()), Err(Error::NoConnection)));
    let mut router = Router::new().unwrap();
    router.connect(100);
    let mut room = [0; 128];
    let asked = router.pull(&mut room);
    assert_eq!(cache.receive(1, &room[..asked]), Ok(8));
    assert_eq!((cache.has_bytes(1), cache.notify(1)), (Ok(true), Ok(false)));
    let sent = cache.pull(1, &mut room).unwrap();
    assert_eq!(room[..sent], ANSWER);
    assert_eq!(router.receive(&room[..sent], 101), sent);
    assert_eq!(router.records().collect::<Vec<_>>(), [ten, db8]);
    assert_eq!((cache.notify(1), cache.pull(1, &mut room), cache.is_open(1)), (Ok(true), Ok(12), Ok(true)));
}

#[test]
fn the_settings_of_a_cache_are_judged() {
    assert_eq!(Cache::new(&CacheSettings { refresh: 0, ..SETTINGS }).unwrap_err(), Error::BadTiming(1));
    assert_eq!(Cache::new(&CacheSettings { expire: 3600, ..SETTINGS }).unwrap_err(), Error::BadTiming(2));
    assert_eq!(Cache::new(&CacheSettings { keep: 0, ..SETTINGS }).unwrap_err(), Error::BadKeep);
}

#[test]
fn states_links_ends_and_faults_have_names() {
    let states = [OriginState::NotFound, OriginState::Valid, OriginState::Invalid];
    assert_eq!(states.map(|state| state.to_string()), ["not-found", "valid", "invalid"]);
    assert_eq!(Link::Answering.to_string(), "answering");
    assert_eq!(Link::Ended(End::ReportReceived(2)).to_string(), "ended: the cache sent an Error Report of code 2");
    assert_eq!(End::Expired.to_string(), "the committed version expired");
    assert_eq!(rpkirtr::fault_name(14), "nextUpdate is not later than thisUpdate");
    assert_eq!(rpkirtr::fault_name(21), "no such fault");
}

#[test]
fn the_library_has_a_version() {
    assert_eq!(rpkirtr::version(), "1.1.0");
}

#[test]
fn an_index_judges() {
    let ten = vrp("10.0.0.0/8", 16, 64496);
    let index = Index::new(&[ten, ten]).unwrap();
    assert_eq!(index.len(), 1);
    assert_eq!(index.state(&route("10.0.0.0/8", Some(64496))), Ok(OriginState::Valid));
    assert_eq!(Index::new(&[ten, vrp("10.0.0.0/8", 7, 1)]).unwrap_err(), Error::BadRecord(1));
    let many: Vec<Vrp> = (8..=32).map(|len| vrp(&format!("10.0.0.0/{len}"), 32, 1)).collect();
    assert_eq!(Index::new(&many).unwrap().covering(&route("10.0.0.0/32", None)).unwrap(), many);
}

#[test]
fn handles_go_to_other_threads() {
    let index = Index::new(&[]).unwrap();
    std::thread::spawn(move || assert!(index.is_empty())).join().unwrap();
}

#[test]
fn handles_of_one_index_are_used_in_threads_of_their_own() {
    let index = Index::new(&[vrp("10.0.0.0/8", 16, 64496)]).unwrap();
    let threads: Vec<_> = (0..4)
        .map(|_| {
            let own = index.share().unwrap();
            std::thread::spawn(move || (0..500).filter(|_| own.state(&route("10.1.0.0/16", Some(64496))) == Ok(OriginState::Valid)).count())
        })
        .collect();
    drop(index);
    assert!(threads.into_iter().all(|thread| thread.join().unwrap() == 500));
}

#[test]
fn a_failed_attempt_is_made_again_after_the_retry_interval() {
    let mut router = Router::new().unwrap();
    assert_eq!((router.next_query_at(), router.connect_failed(100)), (None, 700));
    router.configure(&Config { retry: 30, ..Config::default() }).unwrap();
    assert_eq!(router.connect_failed(100), 130);
    assert_eq!(router.configure(&Config { most: 0, ..Config::default() }), Err(Error::NoRoom));
}
