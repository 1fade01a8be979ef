//! The rules that the calls follow: those of document 01 with requests A1 to A3 and A5 to A7
//! of document 02, or the same with one deliberate misreading, by which the tests are
//! shown to notice it.

/// The comparers that are tried with misreadings.
#[derive(Clone, Copy, PartialEq, Eq, Debug)]
pub enum Comparer {
    Listing,
    Check,
    Calls,
    Services,
    Edits,
}

impl Comparer {
    pub const ALL: [Comparer; 5] =
        [Comparer::Listing, Comparer::Check, Comparer::Calls, Comparer::Services, Comparer::Edits];

    /// The name of its program.
    pub fn name(self) -> &'static str {
        match self {
            Comparer::Listing => "compare-listing",
            Comparer::Check => "compare-check",
            Comparer::Calls => "compare-calls",
            Comparer::Services => "compare-services",
            Comparer::Edits => "compare-edits",
        }
    }
}

/// Declares the misreadings once: the cases, their list, their descriptions, and
/// the comparers that have to notice each. What none of them notices, only the
/// properties do.
macro_rules! misreadings {
    ($($text:literal $name:ident: [$($comparer:ident),*],)+) => {
        #[derive(Clone, Copy, PartialEq, Eq, Debug)]
        pub enum Misreading { $(#[doc = $text] $name,)+ }

        impl Misreading {
            pub const ALL: &'static [Misreading] = &[$(Misreading::$name,)+];

            pub fn description(self) -> &'static str {
                match self { $(Misreading::$name => $text,)+ }
            }

            pub fn noticed_by(self) -> &'static [Comparer] {
                match self { $(Misreading::$name => &[$(Comparer::$comparer),*],)+ }
            }
        }
    };
}

misreadings! {
    // The four that document 01 names.
    "identifiers are compared in the order of travel" OrderOfTravel: [Listing, Calls, Edits],
    "the address is masked but not the priority" PriorityNotMasked: [Listing, Calls, Edits],
    "ties are broken by the next hop alone" NextHopAlone: [Listing, Calls, Edits],
    "a link costs the near end's metric" NearEndMetric: [Listing, Check, Calls, Edits],
    // Links and the chosen path.
    "a link costs the sum of its metrics" SumOfMetrics: [Listing, Check, Calls, Edits],
    "a link costs the lesser of its metrics" LesserMetric: [Listing, Check, Calls, Edits],
    "a half-link alone is used" LoneHalfLinkUsed: [Listing, Check, Calls, Edits],
    "metric 16,777,215 is usable" UnusableUsed: [Listing, Check, Calls, Edits],
    "metric 16,777,214 is unusable" GreatestUsableUnused: [Listing, Check, Calls, Edits],
    "of equal parallel links the higher link number" HigherLinkNumber: [Listing, Calls],
    "of parallel links the lower link number, whatever the cost" LinkNumberBeforeCost: [Listing, Calls, Edits],
    "of equal parallel links the lower near port" LowerNearPort: [Listing, Calls],
    "the hop count does not count" HopCountIgnored: [Listing, Calls, Edits],
    "fewest hops before least cost" HopsBeforeCost: [Listing, Calls, Edits],
    "cost and hop count are added together" HopsAddedToCost: [Listing, Calls, Edits],
    "the highest masked PATHID" HighestPathid: [Listing, Calls, Edits],
    "identifiers are sorted before they are masked" SortedBeforeMasking: [Listing, Calls, Edits],
    "identifiers are compared as signed numbers" SignedIdentifiers: [Listing, Calls, Edits],
    "the masks of index 15 and 16 are exchanged" LastMasksExchanged: [Listing, Calls, Edits],
    "the index counts from 0" IndexFromZero: [Listing, Calls, Edits],
    // Overloaded bridges, request A1 of document 02.
    "an overloaded bridge may lie between" OverloadIgnored: [Listing, Calls, Edits],
    "an overloaded bridge begins no path" OverloadedBeginsNone: [Listing, Calls, Edits],
    "an overloaded bridge ends no path" OverloadedEndsNone: [Listing, Calls, Edits],
    "of two overloaded bridges neither reaches the other" OverloadedApart: [Listing, Calls, Edits],
    "12 where the lowest list of all has an overloaded bridge between" TwelveAtOverloaded: [Listing, Calls, Edits],
    "an overloaded bridge sends no group frames" OverloadedSendsNone: [Listing, Calls],
    "an overloaded bridge passes group frames on" OverloadedPassesGroups: [Listing, Calls],
    "overload is bit 26" OverloadAtBit26: [Listing, Check, Calls, Services, Edits],
    "bit 26 of a bridge is no zero bit" Bit26Accepted: [Listing, Check, Calls, Services, Edits],
    "bit 27 of a bridge is a zero bit" OverloadRefused: [Listing, Check, Calls, Services, Edits],
    "usable links of an overloaded bridge are not counted" OverloadedLinksUncounted: [Listing, Check],
    "SPsourceIDs repeat with equal overload only" RepeatWithOverload: [Listing, Check, Calls, Services],
    // Ports out of service, request A3 of document 02. That a half-link that is down has
    // metric 16,777,215 once its range was asked shows in no answer.
    "the mark of a half-link is ignored" DownIgnored: [Listing, Check, Calls, Edits],
    "a link is down where its near half is" DownAskedOfNear: [Listing, Check, Calls, Edits],
    "a link is down where its far half is" DownAskedOfFar: [Listing, Check, Calls, Edits],
    "a link is down where both its halves are" DownWhereBothAre: [Listing, Check, Calls, Edits],
    "a link is down where one parallel to it is" DownTakesParallels: [Listing, Check, Calls, Edits],
    "links that are down count as usable" DownLinksCounted: [Listing, Check],
    "half-links that are down are not counted" DownHalfLinksUncounted: [Listing, Check],
    "two bridges are not joined where their cheapest link is down" DownTakenFirst: [Listing, Calls, Edits],
    "a hop keeps the cost of the cheapest link, though it is down" DownCostKept: [Listing, Calls, Edits],
    "a hop keeps the port of the cheapest link, though it is down" DownPortKept: [Listing, Calls],
    "a frame crosses a link that is down" FrameCrossesDown: [],
    "down is bit 26" DownAtBit26: [Listing, Check, Calls, Services, Edits],
    "bit 26 of a half-link is no zero bit" HalfLinkBit26Accepted: [Listing, Check, Calls, Services, Edits],
    "bits 25 and 24 of a half-link are no zero bits" Bits25And24Accepted: [Listing, Check, Calls, Services, Edits],
    "bit 27 of a half-link is a zero bit" DownRefused: [Listing, Check, Calls, Services, Edits],
    "bit 27 of a half-link is part of its metric" MetricWithMark: [Listing, Check, Calls, Services, Edits],
    "a half-link that is down has no zero bits" DownZeroBitsUnasked: [Listing, Check, Calls, Services, Edits],
    "a half-link that is down is never one too many" DownBeyondLimit: [Listing, Check, Calls, Services, Edits],
    "a half-link that is down may have any metric" DownMetricUnasked: [Listing, Check, Calls, Services, Edits],
    "a half-link that is down may name any bridge" DownNamesUnasked: [Listing, Check, Calls, Services, Edits],
    "a half-link that is down leaves its port free" DownFreesPort: [Listing, Check, Calls, Services, Edits],
    "a half-link that is down repeats no port" DownTakesPort: [Listing, Check, Calls, Services, Edits],
    "a half-link that is down leaves its link number free" DownFreesLinkNumber: [Listing, Check, Calls, Services, Edits],
    "a half-link that is down may have any link number" DownTakesLinkNumber: [Listing, Check, Calls, Services, Edits],
    "of a mirror and its half-link both are down or neither" MirrorsWithEqualMark: [Listing, Check, Calls, Services, Edits],
    // Traffic records and loads, request A5 of document 02. That from and to are exchanged
    // shows in no answer: a path and its reverse take the same hops.
    "a hop counts only when it is taken from lower to higher bridge" LoadOneWay: [Listing],
    "a record loads the way back too" LoadedBackToo: [Listing],
    "pairs without load are left out" IdlePairsLeftOut: [Listing],
    "lost amounts are counted in total" LostInTotal: [Listing],
    "total counts one hop too many of each path" OneHopTooMany: [Listing],
    "total is amount times cost" CostInTotal: [Listing],
    "loads count records instead of amounts" RecordsInsteadOfAmounts: [Listing],
    "loads go by the paths of the first VID" LoadsByFirstVid: [Listing],
    "load lines where no traffic record occurs" LoadsWithoutTraffic: [Listing],
    "a load line for each usable link" LoadForEachLink: [Listing],
    "load lines rise by the higher bridge first" LoadsByHigherBridge: [Listing],
    "pairs of an overloaded bridge have no load line" OverloadedPairsLeftOut: [Listing],
    "pairs that links which are down join have a load line" DownPairsListed: [Listing],
    "lost is left out where it is 0" NothingLostLeftOut: [Listing],
    "traffic records are counted among the members" TrafficCountedAsMembers: [Listing, Check],
    "kind 5 is unknown" TrafficUnknown: [Listing, Check, Calls, Services, Edits],
    "a table of more than 7,492 bytes is 1" ShorterTables: [Listing, Check, Calls, Services, Edits],
    "amount 0 is in range" AmountZeroAccepted: [Listing, Check, Calls, Services, Edits],
    "a traffic record's VID out of range is 7" TrafficVidUnknown: [Listing, Check, Calls, Services, Edits],
    "a traffic record may lead from a bridge to itself" TrafficToItself: [Listing, Check, Calls, Services, Edits],
    "the opposite direction is a repeat" OppositeRepeats: [Listing, Check, Calls, Services, Edits],
    "traffic repeats without regard to the VID" TrafficRepeatsWithoutVid: [Listing, Check, Calls, Services, Edits],
    "traffic repeats with equal amount only" TrafficRepeatsWithAmount: [Listing, Check, Calls, Services, Edits],
    // Extension bits in priorities, request A6 of document 02. That they are cleared after
    // masking shows in no answer, since what stands in their place is the same for all
    // bridges; nor does it show that the ends of a path keep theirs, since paths that are
    // compared have the same ends.
    "extension bits count" ExtensionCounts: [Listing, Calls, Edits],
    "only the low 8 of the 12 extension bits are cleared" LowByteCleared: [Listing, Calls, Edits],
    "all 16 priority bits are cleared" PriorityCleared: [Listing, Calls, Edits],
    "the 4 top bits are cleared in place of the 12 extension bits" TopBitsCleared: [Listing, Calls, Edits],
    "the 12 top priority bits are cleared" TwelveTopBitsCleared: [Listing, Calls, Edits],
    "extension bits are zero bits" ExtensionRefused: [Listing, Check, Calls, Services, Edits],
    "a priority with extension bits is out of range" ExtensionOutOfRange: [Listing, Check, Calls, Services, Edits],
    "addresses repeat with equal top priority bits only" RepeatWithTopBits: [Listing, Check, Calls, Services, Edits],
    // Calls.
    "12 is given before searching beyond one hop" TwelveBeforeSearching: [Listing, Calls],
    "13 though the answer just fits" ThirteenThoughItFits: [Calls, Services, Edits],
    "13 after the part that fits is written" WrittenBeforeThirteen: [Calls, Services],
    "words past those written are cleared" RestCleared: [Calls, Services, Edits],
    "a path to the same bridge needs no known VID" SameBridgeUnchecked: [Calls],
    "wide numbers are cut to 16 bits" WideNumbersCut: [Calls, Services, Edits],
    "12 is given for an unknown name" TwelveForUnknown: [Calls],
    "the first hop's cost is given as the path's" InventedCost: [Calls],
    "exported path cost gives 13" ExportedThirteen: [],
    "a tree gives the first bridge after the root" TreeGivesFirstHop: [Calls, Edits],
    // Entries.
    "receivers of another VID count" ReceiversOfAnotherVid: [Listing, Calls],
    "receivers of another I-SID count" ReceiversOfAnotherService: [Listing, Calls],
    "every bridge is a receiver" EveryBridgeReceives: [Listing, Calls],
    "T and R are exchanged" TransmitReceiveExchanged: [Listing, Calls],
    "the port is the far end's" FarEndPort: [Listing, Calls],
    "a group entry for each receiver" EntryForEachReceiver: [Listing, Calls],
    "group ports fall" GroupPortsFall: [Listing, Calls],
    "no group entries at the transmitter" NoneAtTransmitter: [Listing, Calls],
    "group entries come before individual ones" GroupsFirst: [Listing, Calls],
    "VIDs come in rising order" VidsRising: [Listing, Calls],
    "no entries are written" NoEntries: [Listing, Calls],
    "individual entries to direct neighbours only" NeighboursOnly: [Listing, Calls],
    "hexadecimal 3 comes before the top bits of SPsourceID" GroupNibblesExchanged: [Listing, Calls],
    "the I-SID's low octet comes first" ServiceReversed: [Listing, Calls],
    "kinds 8 and 9 are exchanged" EntryKindsExchanged: [Calls],
    // Reading sub-TLVs, request A2 of document 02. That 8 comes before 6 in one service
    // does not show: the earlier service of the same I-SID is faulty by 6 already.
    "T and R of a service are read exchanged" ReadFlagsExchanged: [Services],
    "reserved bits before the Base VID are refused" VidReservedRefused: [Services],
    "reserved bits of a service are refused" ServiceReservedRefused: [Services],
    "the Base VID takes in its reserved bits" VidWithReservedBits: [Services],
    "the B-MAC is compared with all 64 bits of the identifier" BMacWithPriority: [Services],
    "11 for a B-MAC or VID that the table lacks" ElevenForUnknownBMac: [Services],
    "any type is read" AnyTypeRead: [Services],
    "the length read counts its own byte and the type" ReadLengthOfWhole: [Services],
    "bytes after a service that is not whole are ignored" PartOfServiceIgnored: [Services],
    "bytes after those that the length counts are ignored" BytesAfterSubTlvIgnored: [Services],
    "62 services are read" SixtyTwoRead: [Services],
    "60 services at most are read" SixtyAtMostRead: [Services],
    "16 comes before 15" SixteenBeforeFifteen: [Services],
    "6 and 8 of a service come before 16" ServicesBeforeSixteen: [Services],
    "13 comes before 6 and 8 of a service" ThirteenBeforeServices: [Services],
    "13 comes before 16" ThirteenBeforeSixteen: [Services],
    "services are counted from 1" ServicesFromOne: [Services],
    "the word is the number of the service's first byte" ByteOfService: [Services],
    "the word is that of the service's member record" WordOfService: [Services],
    "6 and 8 of a service carry kind none" FaultWithoutKind: [Services],
    "8 carries the earlier of two equal services" EarlierOfRepeat: [Services],
    "of the faulty services the last counts" LastFaultyService: [Services],
    "6 of any service comes before 8" RangeBeforeRepeats: [Services],
    "the table's own members count as repeats" TableMembersRepeat: [Services],
    "services repeat with equal T and R only" RepeatsWithEqualFlags: [Services],
    "services repeat next to each other only" RepeatsOfNeighbour: [Services],
    "of repeated services T and R are joined, as the standard has it" RepeatsMerged: [Services],
    "I-SID 0 is ignored, as the standard has it" ZeroServiceIgnored: [Services],
    "I-SID 16,777,215 of a service is in range" LastServiceInRange: [Services],
    // Writing sub-TLVs.
    "T and R of a service are written exchanged" WrittenFlagsExchanged: [Services],
    "reserved bits before the Base VID are written as ones" VidReservedWritten: [Services],
    "reserved bits of a service are written as ones" ServiceReservedWritten: [Services],
    "the B-MAC begins with the priority" PriorityInBMac: [Services],
    "the length written counts its own byte and the type" WrittenLengthOfWhole: [Services],
    "61 services are written into one sub-TLV" SixtyOneWritten: [Services],
    "the first sub-TLV is the short one" FirstSubTlvShort: [Services],
    "an empty sub-TLV follows one of 60 services" EmptyAfterFull: [Services],
    "a bridge without members gives an empty sub-TLV" EmptyWithoutMembers: [Services],
    "a bridge without members is 11" ElevenWithoutMembers: [Services],
    "members of all VIDs are written" AllVidsWritten: [Services],
    "members of all bridges are written" AllBridgesWritten: [Services],
    "members with neither T nor R are left out" IdleMembersLeftOut: [Services],
    "services are written in rising order" ServicesRising: [Services],
    // Plans edited on screen, request A7 of document 02. That the near bridge is asked for
    // before the watched names shows in no answer: both are 11.
    "the tree is that of the table before the change" TreeBeforeChange: [Edits],
    "refused changes are counted" RefusedChangesCounted: [Edits],
    "a load counts as a change" LoadCounted: [Edits],
    "a withdrawal keeps the end count" EndCountKept: [Edits],
    "a withdrawal lowers the end count by 1" EndCountLoweredByOne: [Edits],
    "a metric change clears the bits above the metric" MarkClearedByMetric: [Edits],
    "a metric change is made at both halves" MetricOfBothHalves: [Edits],
    "a metric above 16,777,215 is cut to its low 24 bits" MetricCut: [Edits],
    "19 is given with 65,534 changes made" NineteenEarly: [Edits],
    "19 is first given with 65,536 changes made" NineteenLate: [Edits],
    "19 comes before 18" NineteenBeforeEighteen: [Edits],
    "19 comes before 17" NineteenBeforeSeventeen: [Edits],
    "18 comes before 17" EighteenBeforeSeventeen: [Edits],
    "13 comes before 17" ThirteenBeforeSeventeen: [Edits],
    "13 comes before 19" ThirteenBeforeNineteen: [Edits],
    "13 comes before 11 of a watched name" ThirteenBeforeWatched: [Edits],
    "18 and 19 carry the half-link" ChangeRefusedWithKind: [Edits],
    "an unknown near bridge is 17" SeventeenForUnknownNear: [Edits],
    "no such half-link is 11" ElevenForNoHalfLink: [Edits],
    "a change to metric 16,777,215 is 18" ChangeToUnusableRefused: [Edits],
    "a change to metric 0 is made" ChangeToZeroMade: [Edits],
    "a half-link is named by far bridge and port" NamedByFarBridge: [Edits],
    "a half-link is named by its port alone" NamedByPortAlone: [Edits],
    "a half-link that is down is not found" DownNotFound: [Edits],
    "a withdrawal removes both halves of the link" BothHalvesWithdrawn: [Edits],
    "a withdrawal marks the half-link as down" WithdrawnMarkedDown: [Edits],
    "a withdrawal sets the count to 0" CountResetByWithdrawal: [Edits],
    "a withdrawal keeps the length" LengthKeptByWithdrawal: [Edits],
    "a change to the metric that is there is not counted" EqualMetricUncounted: [Edits],
    "bytes behind the new end are cleared" BehindEndCleared: [Edits],
    "bytes behind the running table move with its end" BehindEndMoved: [Edits],
    "the table is edited though the lists are short" EditedThoughThirteen: [Edits],
    "unknown watched names are ignored" WatchedNamesUnasked: [Edits],
    "a length above the lent bytes is 1" LengthBeyondRefused: [Edits],
    "the running table is all the lent bytes" AllBytesRunning: [Edits],
    // Lookup.
    "lookup answers none after n = 0" LookupFirstOnly: [],
    "lookup does not compare the VID" LookupIgnoresVid: [],
    "lookup counts n over the whole list" LookupCountsAll: [],
    "lookup does not see faults after the match" LookupStopsAtMatch: [],
    "lookup refuses an empty list" LookupEmptyRefused: [],
    "lookup refuses address zero" LookupZeroRefused: [],
    // The check. The comparers of listings and edits are given fewer tables than the others:
    // I-SID 255 is too rare in them; in those of edits so are index 0, VIDs of members that are
    // out of range, and equal SPsourceIDs of which one is overloaded.
    "all tables are refused" AllRefused: [Listing, Check, Calls, Services, Edits],
    "the limit is tested before the zero bits" LimitBeforeZeroBits: [Listing, Check, Calls, Services, Edits],
    "ranges are tested before the limit" RangeBeforeLimit: [Listing, Check, Calls, Services, Edits],
    "of a record's faults the highest counts" HighestFault: [Listing, Check, Calls, Services, Edits],
    "one record over the limit is accepted" OneOverLimit: [Listing, Check, Calls, Services, Edits],
    "a kind may fall" KindMayFall: [Listing, Check, Calls, Services, Edits],
    "2 carries the record before" TwoAtRecordBefore: [Listing, Check, Calls, Services, Edits],
    "a record that is cut off counts as a missing end" CutOffAsMissingEnd: [Listing, Check, Calls, Services, Edits],
    "a missing end carries the last record" MissingEndAtLastRecord: [Listing, Check, Calls, Services, Edits],
    "refusals count bytes instead of words" BytesInsteadOfWords: [Listing, Check, Calls, Services, Edits],
    "the end count includes the end record" EndCountsItself: [Listing, Check, Calls, Services, Edits],
    "words after the end are accepted" WordsAfterEnd: [Listing, Check, Calls, Services, Edits],
    "metric 16,777,215 is out of range" UnusableOutOfRange: [Listing, Check, Calls, Services, Edits],
    "I-SID 255 is in range" ServiceFrom255: [Check, Calls, Services],
    "VID 4,095 is in range" VidTo4095: [Listing, Check, Calls, Services, Edits],
    "port 4,096 is in range" PortTo4096: [Listing, Check, Calls, Services, Edits],
    "ECT index 0 is in range" IndexZeroAccepted: [Listing, Check, Calls, Services],
    "a group address is accepted" GroupAddressAccepted: [Listing, Check, Calls, Services, Edits],
    "a member's VID out of range is 7" MemberVidUnknown: [Listing, Check, Calls, Services],
    "a half-link may join a bridge to itself" LoopAccepted: [Listing, Check, Calls, Services, Edits],
    "addresses repeat with equal priority only" RepeatWithPriority: [Listing, Check, Calls, Services, Edits],
    "ports repeat across bridges" PortRepeatsAnywhere: [Listing, Check, Calls, Services, Edits],
    "members repeat without regard to the VID" MemberRepeatsWithoutVid: [Listing, Check, Calls, Services, Edits],
    "any second half-link is a mirror" AnyMirror: [Listing, Check, Calls, Services, Edits],
    "a third half-link is accepted" ThirdAccepted: [Listing, Check, Calls, Services, Edits],
    "joined pairs are counted in place of usable links" JoinedPairsCounted: [Listing, Check],
    "half-links of unusable links are not counted" UsableHalfLinksCounted: [Listing, Check],
    // The listing.
    "path lines come by from and to before VID" PairsBeforeVids: [Listing],
    "none stands at the end of its line" NoneLast: [Listing],
    "addresses have upper-case digits" UpperCaseAddresses: [Listing],
    "addresses have no leading zeros" ShortAddresses: [Listing],
    "a refused table's line gives the kind" RefusedWithKind: [Listing],
}

impl Misreading {
    /// Those of request A6 by which PATHIDs have another order, and which change nothing
    /// else.
    pub const OF_PATHID_ORDER: [Misreading; 5] = [
        Misreading::ExtensionCounts,
        Misreading::LowByteCleared,
        Misreading::PriorityCleared,
        Misreading::TopBitsCleared,
        Misreading::TwelveTopBitsCleared,
    ];
}

#[derive(Clone, Copy, Debug)]
pub struct Rules(Option<Misreading>);

impl Rules {
    /// Document 01 with requests A1 to A3 and A5 to A7 of document 02, to the word.
    pub const AS_WRITTEN: Rules = Rules(None);

    pub fn with(misreading: Misreading) -> Rules {
        Rules(Some(misreading))
    }

    pub fn has(self, misreading: Misreading) -> bool {
        self.0 == Some(misreading)
    }
}
